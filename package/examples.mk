# Builds the examples with the library that pkg-config finds. Without pkg-config: make FLAGS='-IFOLDER/include -LFOLDER/lib -lshiftsum'.
FLAGS = $(shell pkg-config --cflags --libs shiftsum)

all: desk patterns

desk: desk.c book.c frame.c merge.c noise.c
	$(CC) -std=c11 -O2 -Wall -Wextra -pedantic $^ $(FLAGS) -o $@

patterns: patterns.c book.c noise.c
	$(CC) -std=c11 -O2 -Wall -Wextra -pedantic $^ $(FLAGS) -o $@

clean:
	rm -f desk patterns

.PHONY: all clean
