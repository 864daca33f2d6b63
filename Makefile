.DEFAULT_GOAL := help
.PHONY: help test check wrong-answers demo vectors examples bench times

MAKEFLAGS += --no-print-directory

# What is linked are the libraries that are built here.
unexport HOURSQUALL_LIB

# Runs a command, and shows what it said only if it fails.
quietly = @said=$$($(1) 2>&1) || { printf '%s\n' "$$said"; exit 1; }

help:
	@echo 'make test           the gate: layout, documents, lints, proofs, must-fail edits, programs, examples, Rust tests'
	@echo 'make check          the same without the edits, and without proving again what has not changed'
	@echo 'make wrong-answers  try the edits beside the gate; CRATE=ubios: those of one crate'
	@echo 'make demo           prove the player, and play the recorded day that is kept here'
	@echo 'make vectors        run the numbers to check by, and every refusal, through the proved code'
	@echo 'make examples       link the library from C and from Rust, and run both'
	@echo 'make bench          time the library beside plain Rust'
	@echo 'make times          the gate, and docs/TIMES.md from what it printed'

test:
	@scripts/test.sh

check:
	@scripts/test.sh quick

wrong-answers:
	@scripts/wrong-answers.sh try $(CRATE)

demo:
	$(call quietly,scripts/build.sh programs)
	@cd crates/play/data && echo '$$ play receiver log' && ../../../target/bin/play receiver log

vectors:
	$(call quietly,scripts/build.sh programs)
	@target/bin/vectors

examples:
	$(call quietly,scripts/build.sh libraries)
	@scripts/examples.sh c
	@scripts/examples.sh rust

bench:
	$(call quietly,scripts/build.sh libraries)
	$(call quietly,scripts/build.sh programs)
	@scripts/bench.sh

times:
	@scripts/times.sh
