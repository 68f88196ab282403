# make run [JOB=file]   proves and builds the listing program, runs it on a job, shows the listing, and then says whether its loop is sound
# make miss [JOB=file]  the same for a loop, and then how far it misses
# make command          the command target/jabulghi; CC, CFLAGS and LDFLAGS are the compiler and its options
# make install          the command, the library, its headers and the manual pages, below PREFIX=folder (/usr/local); LIBDIR, MANDIR, and DESTDIR for packagers
# make uninstall        removes them there, with the same PREFIX, LIBDIR, MANDIR and DESTDIR
# make lib              proves what changed and writes target/staticlib/libjabulghi.a, for C and Rust
# make lib TARGET=name  the library for another processor: target/name/libjabulghi.a; TARGET=list prints the names and what each serves
# make wasm             the library for browsers and node: target/wasm32/jabulghi.wasm and jabulghi.js (docs/WEB.md)
# make page             the page for any browser, one file: target/page/jabulghi.html (docs/PAGE.md)
# make windows          the library and the command for Windows: target/x86_64-windows/jabulghi.dll, libjabulghi.a and jabulghi.exe
# make wheel            the package for Python, with the shared library: target/wheel (bindings/python/README.md)
# make dist             a release: an archive for each of them in target/dist, for people without the toolchain; TARGET=name makes one alone
# make test             everything: the gate, every proof and every edit that this machine has not yet passed, then all tests
# make test PART=name   one part of the tests on what is built, or with CASE=name a case of it; PART=list names the parts
# make lint             the form of the sources and what their checkers find; FIX=1 formats them first
# make packages         installs the Debian packages that builds and tests need; tools/packages lists them
# make bench            times beside plain C and other generators
# make datasheet        docs/DATASHEET.md with its numbers and pictures, and as a PDF, target/datasheet/datasheet.pdf; [PART=speed] one part of the numbers alone
# make clean            removes what was built; proofs and the proved library stay
# make help             prints these lines

.PHONY: run miss test lib bench datasheet
run: JOB ?= examples/loop.job
run:
	@tools/run "$(JOB)"

miss: JOB ?= examples/loop.job
miss:
	@tools/run "$(JOB)" misses

PART ?=
CASE ?=
test:
	$(if $(PART),tests/run $(PART) $(CASE),.ci/run)

# Where the toolchain is missing, what needs it ends with a sentence; lists do not need it, nor does a library that CLANG compiles from modules.
ifeq ($(filter list lint,$(PART) $(TARGET))$(CLANG),)
run miss test lib command wasm page windows wheel dist install bench datasheet: | toolchain
endif
.PHONY: toolchain
toolchain:
	@command -v rt >/dev/null || { \
	    echo "make: 'rt' of the Rattle kit is missing: it checks the proofs, from which all is built here; without it 'make help', 'make packages', 'make lint' and the archives of a release work." >&2; \
	    exit 2; }

.PHONY: lint packages
lint:
	tools/lint $(if $(FIX),--fix)

packages:
	@tools/packages install

TARGET ?=
lib:
	$(if $(TARGET),tools/target $(TARGET),tools/library)
	@$(if $(TARGET),,echo "target/staticlib/libjabulghi.a is up to date")

.PHONY: command wasm page windows wheel dist install uninstall clean help
command:
	tools/command

wasm:
	tools/wasm

page:
	tools/page

windows:
	tools/windows

wheel:
	tools/library
	python3 bindings/python/wheel_of.py target/wheel

dist:
	tools/dist target/dist $(TARGET)

export PREFIX LIBDIR MANDIR DESTDIR
install uninstall:
	@tools/install $@

bench:
	bench/run

datasheet:
	tools/datasheet/run $(PART)

clean:
	@tools/clean

help:
	@sed -n 's/^# make/make/p' Makefile
