# `make run` and `make test` are all a newcomer needs; both work from a fresh clone.
.PHONY: run test cases check-time fuzz bench curves build install put uninstall dist deb clean

VERSION = 0.8.0
RT = rt
CC ?= cc
CFLAGS ?= -O2
INSTALL = install
PREFIX = /usr/local
INCLUDEDIR = $(PREFIX)/include
LIBDIR = $(PREFIX)/lib
BINDIR = $(PREFIX)/bin
MANDIR = $(PREFIX)/share/man
# Where a package is put together; no part of the paths that shiftsum.pc names.
DESTDIR =

archive = target/staticlib/libshiftsum.a
program = target/bin/decode_stream
command = target/bin/shiftsum
pages = shiftsum.1 decode_stream.1 shiftsum.3 shiftsum-codebook.5
# Each function's own name leads to shiftsum(3) too.
functions = $(shell grep -o '^uint32_t shiftsum_[a-z]*' include/shiftsum.h | cut -d ' ' -f 2)

run:
	@examples/show

test:
	@tests/gate

# The worked cases, proved and shown.
cases:
	@tests/show_cases

# Every crate proved from nothing, without the edits that must be refused: seconds a crate, its count of edits, their product, and in all.
check-time:
	@tests/check_time

# Longer than in the gate, as in make fuzz FUZZ_SECONDS=3600.
FUZZ_SECONDS = 600
fuzz:
	@RT='$(RT)' QUIET=1 package/build shiftsum
	@FUZZ_SECONDS=$(FUZZ_SECONDS) tests/fuzz/run

# Times against C, as ratios; no test.
bench: build
	@bench/run

# How many wrong symbols each stored codebook mends, for every D; no test. Needs rt only where there is no archive.
curves:
	@curves/run

# Only what has changed since it was built; one line where nothing has, none with -s.
build:
	@RT='$(RT)' CC='$(CC)' CFLAGS='$(CFLAGS)' QUIET='$(findstring s,$(firstword -$(MAKEFLAGS)))' package/build

install: build
	@$(MAKE) --no-print-directory put

# What install does once all is built; packages are put together by it too.
put:
	$(INSTALL) -d '$(DESTDIR)$(INCLUDEDIR)' '$(DESTDIR)$(LIBDIR)/pkgconfig' '$(DESTDIR)$(BINDIR)'
	$(INSTALL) -m 644 include/shiftsum.h '$(DESTDIR)$(INCLUDEDIR)/shiftsum.h'
	$(INSTALL) -m 644 $(archive) '$(DESTDIR)$(LIBDIR)/libshiftsum.a'
	$(INSTALL) -m 755 $(program) '$(DESTDIR)$(BINDIR)/decode_stream'
	$(INSTALL) -m 755 $(command) '$(DESTDIR)$(BINDIR)/shiftsum'
	sed -e 's|@PREFIX@|$(PREFIX)|' -e 's|@INCLUDEDIR@|$(INCLUDEDIR)|' -e 's|@LIBDIR@|$(LIBDIR)|' -e 's|@VERSION@|$(VERSION)|' shiftsum.pc.in \
		> '$(DESTDIR)$(LIBDIR)/pkgconfig/shiftsum.pc'
	chmod 644 '$(DESTDIR)$(LIBDIR)/pkgconfig/shiftsum.pc'
	for page in $(pages); do $(INSTALL) -D -m 644 "man/$$page" '$(DESTDIR)$(MANDIR)'/man"$${page##*.}/$$page" || exit; done
	for name in $(functions); do \
		echo '.so man3/shiftsum.3' > '$(DESTDIR)$(MANDIR)'/man3/"$$name.3" && chmod 644 '$(DESTDIR)$(MANDIR)'/man3/"$$name.3" || exit; done

# Folders stay: others may use them.
uninstall:
	rm -f '$(DESTDIR)$(INCLUDEDIR)/shiftsum.h' '$(DESTDIR)$(LIBDIR)/libshiftsum.a'
	rm -f '$(DESTDIR)$(LIBDIR)/pkgconfig/shiftsum.pc' '$(DESTDIR)$(BINDIR)/decode_stream' '$(DESTDIR)$(BINDIR)/shiftsum'
	for page in $(pages) $(functions:=.3); do rm -f '$(DESTDIR)$(MANDIR)'/man"$${page##*.}/$$page" || exit; done

# Packages, in target/dist: for use without the repository and without the kit.
dist: build
	@VERSION=$(VERSION) package/dist

deb: build
	@VERSION=$(VERSION) package/deb

clean:
	rm -rf target tests/target crates/*/out
