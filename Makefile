# The project's commands. `make` alone lists them.
.PHONY: help run test prove times library install second compare bench
SHELL := /bin/bash
.SHELLFLAGS := -o pipefail -c

help:
	@echo "make run       proves what is not proved yet, then runs the program on the worked day of README.md and shows the list"
	@echo "make test      the gate: layout, proofs, must-fail edits, examples, and every comparison with the second program"
	@echo "make prove     the proofs alone, from what has changed"
	@echo "make times     the check's time: proves all from nothing, the seconds of each crate as a table; BEFORE=commit proves that first"
	@echo "make library   the static library for C; says where it is and how to link it"
	@echo "make install   puts header, archive, program and a pkg-config file under PREFIX (/usr/local)"
	@echo "make second    builds the second program: second/target/release/second"
	@echo "make compare   more random cases against the second program: N=n library calls and n/10 jobs, SEED=n for others"
	@echo "make bench     measures speed: the judge and the program beside two unproved ones and foma, and the judge's stack"

EXAMPLE ?= examples/held_open.job
run:
	@echo "proving what is not proved yet: some minutes the first time, a line for each crate"
	@scripts/build checker
	@echo "the job, $(EXAMPLE):"
	@cat $(EXAMPLE)
	@echo "the list:"
	@crates/checker/out/checker <$(EXAMPLE)

test:
	@scripts/test

prove:
	rt all check

times:
	@scripts/check_times $(BEFORE)

ARCHIVE := $(CURDIR)/crates/wuzlevor/out/libwuzlevor.a
library:
	@scripts/build wuzlevor
	@echo "archive: $(ARCHIVE)"
	@echo "header:  $(CURDIR)/include/wuzlevor.h"
	@echo "link:    cc -I $(CURDIR)/include YOURS.c $(ARCHIVE)"

PREFIX ?= /usr/local
install: library
	@scripts/build checker
	@scripts/install "$(PREFIX)"

second:
	cd second && cargo build --offline --release

SEED ?= 2
N ?= 200000
compare:
	scripts/build wuzlevor checker case_runner
	scripts/compare_definitions $(SEED) 400 400 400
	scripts/compare_answers $(SEED) 100
	scripts/compare_proved $(SEED) $(N) $$(($(N) / 10))

bench:
	@scripts/bench
