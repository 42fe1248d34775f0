# make: proves every crate, runs every program, shows three days replayed, and builds the C library.
# make test: the merge gate, and then the tests outside the proof.
# make bench: the library beside a C implementation by gcc and by clang, its lists beside C too, segments and a session beside one call, what jobs cost in runs of P and in time (tests/bench_runs.sh, for docs/PLANNING.md), and how the round of P is compiled (tests/round.sh).
# make install PREFIX=..: the library, its header and a pkg-config file, for a C build to find.
# Each crate, edit and test has one line; with V=1 all that the checker says is shown, and target/log keeps it.
.PHONY: all library install test outside bench clean
PREFIX ?= /usr/local
MAKEFLAGS += --no-print-directory

# How many minutes make and make test take from nothing, measured on four cores of an x86-64 host; empty where it was not measured.
minutes_of_all =
minutes_of_test = 22

all:
	@MINUTES='$(minutes_of_all)' tests/progress.sh all
	@tests/show.sh replay
	@echo
	@$(MAKE) library
	@echo
	@echo "The C library is target/staticlib/libjeczmilot.a, and its header include/jeczmilot.h"

library:
	@tests/library.sh

install: library
	@packaging/install.sh $(abspath $(PREFIX))

test:
	@MINUTES='$(minutes_of_test)' tests/gate.sh

outside:
	@tests/outside.sh

bench: library
	@tests/bench.sh
	@echo
	@tests/progress.sh check pace
	@tests/pace.sh

clean:
	rm -rf target crates/*/out
