# make run: proves and builds the program, and checks the example of the README.
# make library: proves and builds the library for C, in lib/. make linked ARCHIVE=..: the same from what rt lib built before.
# make test: the gate. make mutants CRATES=..: all mutants of these crates. make statement: the files on which the headline rests, with COMMAND=check the definitions that one command needs.
# make install PREFIX=..: copies the program and the library, whichever was built, with the man page, the completions, the
# pages for users, and the library's callers in other languages; make uninstall takes all of it away.
# make dist, make deb: packages of program and library, in dist/. What was built from one commit makes the same bytes.

PREFIX ?= /usr/local
DESTDIR ?=
# where libraries are, below PREFIX
LIBDIR := lib
PROGRAM := bin/cudf_check
LIBRARY := lib
DIST := dist
BUILT := crates/cudf_program/out/cudf_program
ARCHIVE := crates/cudf_c/out/libcudf_c.a

PAGES := RULES FORMAT DIFFERENCES COMPETITION MAINTAINERS CI EMBEDDING
VERSION := $(shell sed -n 's/^.define CUDF_CHECK_VERSION "\(.*\)"$$/\1/p' include/cudf_check.h)

# for the scripts of packaging/
export DESTDIR PREFIX LIBDIR PROGRAM LIBRARY DIST PAGES VERSION

# the crates whose mutants are tried, all if none is named
CRATES :=

.PHONY: run library linked test mutants statement install uninstall dist deb toolchain

# The answer is no solution, so the program's status is 1. rt's status is 1 too where a proof fails: then there is no program.
run: toolchain
	@echo "Everything is proved before it is built: later runs prove only what changed."
	@rm -f $(BUILT)
	cd crates/cudf_program && rt run -- check ../../examples/car.problem.cudf ../../examples/car.broken.cudf --explain; test $$? -eq 1
	install -D -m 755 $(BUILT) "$(PROGRAM)"
	@echo "the program is $(PROGRAM)"

library: toolchain
	cd crates/cudf_c && rt lib
	$(MAKE) linked

linked:
	packaging/library.sh "$(ARCHIVE)"

test: toolchain
	.ci/run

mutants: toolchain
	tools/mutants.sh $(CRATES)

statement:
	python3 tools/statement.py $(COMMAND)

install uninstall:
	packaging/install.sh $@

dist:
	packaging/tarball.sh

deb:
	packaging/debian.sh

toolchain:
	@command -v rt >/dev/null || { echo "rt is not on the PATH: install the Rattle toolchain, or add the folder of its command rt to PATH" >&2; exit 2; }
