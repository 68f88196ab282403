# make examples    builds the examples for C and C++ with this library and compares what they print; CC, CXX, CFLAGS and LDFLAGS are the compilers and their options
# make install     copies bin, include, lib and share below PREFIX=folder (/usr/local); LIBDIR, MANDIR, and DESTDIR for packagers
# make uninstall   removes them there, with the same PREFIX, LIBDIR, MANDIR and DESTDIR
# make check       compares every file with SHA256SUMS
# make clean       removes what `make examples` built
# make help        prints these lines
.PHONY: help examples install uninstall check clean
help:
	@sed -n 's/^# //p' Makefile

CFLAGS ?= -O2
CXX ?= c++
RUN ?=
examples:
	@mkdir -p built
	$(CC) -std=c99 $(CFLAGS) -Iinclude examples/calls.c lib/libjabulghi.a $(LDFLAGS) -o built/calls
	$(RUN) built/calls >built/calls.out
	diff examples/calls.expected built/calls.out
	@if $(CXX) --version >/dev/null 2>&1; then \
	    $(CXX) $(CFLAGS) -Iinclude examples/noise.cpp lib/libjabulghi.a $(LDFLAGS) -o built/noise && $(RUN) built/noise >built/noise.out && diff examples/noise.expected built/noise.out; \
	else echo "NOT RUN: examples/noise.cpp, which needs $(CXX)"; fi
	@echo "the examples print what is expected"

export PREFIX LIBDIR MANDIR DESTDIR
install uninstall:
	@sh install.sh $@

check:
	@sha256sum --quiet -c SHA256SUMS && echo "every file is as SHA256SUMS says"

clean:
	rm -rf built
