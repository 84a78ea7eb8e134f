/* What is said beside the answers: sentences on standard error, colour, and the exit status. */
#ifndef SAY_H
#define SAY_H

#include <stdio.h>

/* Exit statuses, the worst last. REFUSED is also of words and games that are held. */
enum { DONE, REFUSED, WRONG };

int worse(int one, int other);

/* A sentence: 'shiftsum: ' before it and a line feed after it. */
void say(const char *format, ...);

/* That what is named is refused, by which number, where the fault is, and what the number means. */
void say_refused(const char *what, unsigned number, const char *place);

/* A word in colour, where the stream is a terminal that shows colours. */
enum { RED = 31, YELLOW = 33 };
void say_mark(FILE *to, int colour, const char *word);

/* Writes what standard output still holds; WRONG, and a sentence, where it cannot be written. */
int say_end(void);

#endif
