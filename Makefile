# `make help` lists the targets.

RT := $(shell command -v rt 2>/dev/null || echo /opt/rattle/bin/rt)

PROGRAM := crates/bpfagent/out/bpfagent

# Where `make install` puts what it installs; DESTDIR stands before it, for packages. The other folders are below PREFIX.
PREFIX ?= /usr/local
LIBDIR ?= lib
MANDIR ?= share/man
DOCDIR ?= share/doc/bpfagent
DESTDIR ?=

.PHONY: help run try program lib install uninstall deb dist test prove edits edits-check vectors fuzz bench always

# Each target with what stands behind `##` on its line.
help: ## this list
	@sed -nE 's/^([a-z-]+):[^#]*## (.*)/make \1\t\2/p' $(MAKEFILE_LIST) | expand -t 20

# By the proved program if there is one of these sources, otherwise by that of `make try`.
run: ## shows a first conversation, each command beside its reply; a minute or two for the first time
	@python3 tools/build.py $(RT) run

# It keeps its address sanitizer, so that a wrong access of the compiler's code is found.
try: ## builds out/bpfagent-unproved, without a proof and with an address sanitizer, which makes it many times slower, and scripts in out/bin; a minute or two
	@python3 tools/build.py $(RT) try

program: $(PROGRAM) ## proves and builds the program, crates/bpfagent/out/bpfagent; 40 minutes for the first time on four processors

# Whether it is one of these sources is decided by what they say, and not by their times.
$(PROGRAM): always
	@python3 tools/build.py $(RT) prove

lib: ## proves and builds the library for C, static and shared, in out/lib; half an hour for the first time on four processors
	@python3 tools/library.py $(RT)

install: $(PROGRAM) lib ## PREFIX=/usr/local LIBDIR=lib MANDIR=share/man: installs program, library, header, man pages, documents
	@python3 tools/install.py --destdir "$(DESTDIR)" --libdir "$(LIBDIR)" --mandir "$(MANDIR)" --docdir "$(DOCDIR)" "$(PREFIX)"

uninstall: ## PREFIX=/usr/local: removes what was installed there
	@python3 tools/install.py --uninstall --destdir "$(DESTDIR)" "$(PREFIX)"

deb: $(PROGRAM) lib ## packs what is proved for Debian, in out/packages; needs debhelper and dh-python
	@python3 tools/pack.py deb

dist: ## a wheel, with the library if `make lib` has linked it, and source archives, in out/dist; needs setuptools and wheel
	@python3 tools/pack.py dist

test: ## whether everything works, without a proof; 6 to 12 minutes on four processors
	@python3 tests/test.py $(RT)

prove: ## proves everything, and tests the proved program; 65 to 90 minutes on four processors
	@python3 tests/gate.py $(RT)

edits: ## NAME='CRATE..': tries the wrong bodies in edits/ of these crates, or of all that have changed; a minute or more each crate
	@python3 tests/edits.py $(RT) $(NAME)

edits-check: ## fails where a crate has changed since its edits were tried; a second
	@python3 tests/edits.py --check

vectors: ## makes the test vectors again, by the interpreter in Python, and compares; half a minute
	@python3 tests/form/generated.py --vectors

# By the proved program if there is one, otherwise by that of `make try`. What fails is kept in tests/fuzzed and tests/hostile/kept.
SECONDS ?= 60
fuzz: ## SECONDS=60 SEED=the day PART='agent elf ..': compares the program with the reference agent, and gives the package and the library hostile input
	@python3 tests/product/fuzz.py $(firstword $(wildcard $(PROGRAM) out/bpfagent-unproved) $(PROGRAM)) $(SECONDS) $(SEED) $(PART:%=--part %)

bench: $(PROGRAM) ## PART='steps lines ..': measures beside the same in C, as ratios; needs a C compiler; 10 minutes
	@python3 bench/run.py $(RT) $(PROGRAM) $(PART)
