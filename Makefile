# check: the gate, all of it; what rt ci has passed on this machine it keeps. demo: the listing of file A of 01-scope.md, then the console's story in C.
# The library for C is target/staticlib/libvestumbral.a, with include/vestumbral.h.
SHELL := /bin/bash
.SHELLFLAGS := -euo pipefail -c
.ONESHELL:
.PHONY: library check demo fuzz bench

library:
	@tools/build.sh vestumbral

# rt ci proves every crate, tries the must-fail edits and runs the programs; an edit that can't be applied fails here too. Then come the
# tests that stand outside it. Its own last line is held back and printed as the last of all.
check:
	@log=$$(mktemp)
	trap 'rm -f "$$log"' EXIT
	rt ci 2>&1 | tee "$$log" | sed -u '$$d' || { tail -n 1 "$$log"; exit 1; }
	! grep -E '^rt: ok.*, [1-9][0-9]* bad' "$$log" || exit 1
	tests/run.sh
	tail -n 1 "$$log" | grep -Ex '[0-9]+ passed, 0 failed'

demo: library
	@tools/build.sh nifti_list
	python3 tests/nifti.py >target/file_a.nii
	echo "file A, $$(wc -c <target/file_a.nii) bytes:"
	target/bin/nifti_list <target/file_a.nii
	gcc -std=c99 -Wall -Wextra -Werror -Iinclude examples/console.c target/staticlib/libvestumbral.a -o target/console
	target/console

# The library beside its second implementation, for as many cases as CASES says.
CASES ?= 5000000
fuzz:
	@tests/differential/run --cases $(CASES)

bench:
	@bench/run
