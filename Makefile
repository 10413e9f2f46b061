# The tasks of the repository; each works on a machine that has only the toolchain.

.PHONY: all test try demo install programs scripts view-tests refusals fuzz race faults mutants speed slow fmt

all: try

# CI: every proof from nothing, some mutants, the tests, the examples, refused allocations, and the tests of
# the programs and of the Python package; it fails if no test ran, and says at its end where the processor's time went.
test:
	@tools/ci

# Runs the first example at once, and leaves bin/gatebench, unproved; tools/try DESIGN COMMANDS runs files of your own in this way.
try:
	@tools/try

# Builds the proved programs into bin/ and runs each example with them.
demo:
	@tools/demo

# Installs bin/gatebench and bin/gaterace, after a demo, with their manual pages, completions and guide: make install PREFIX=/usr/local
PREFIX = $(HOME)/.local
install:
	@tools/install "$(PREFIX)"

# Runs the tests of bin/gatebench and bin/gaterace, after a demo; tools/program_tests runs one of them alone.
programs:
	@tools/program_tests

# Runs the tests of the Python package with bin/gatebench, after a demo; tools/scripts runs one of them alone.
scripts:
	@tools/scripts

# Tests the page of `gatebench view` in a headless Chromium, after a demo; skipped, with a line, where there is none.
view-tests:
	@tools/view_tests/run

# After a demo: refuses each allocation of bin/gatebench over the examples, alone and with all after it; lets its reads and writes
# fail; and refuses each allocation of the program refusals, which it proves and builds first.
refusals:
	@tools/refusals
	@tools/failures
	@cd crates/refusals && rt run > /dev/null
	@tools/refusals_inside

# Compares bin/gatebench with a second reading of docs/SPEC.md over generated texts and sessions, after a demo: make fuzz
# SEED=2 TEXTS=100000 SESSIONS=20000
fuzz:
	@tools/fuzz/run $(if $(SEED),--seed $(SEED)) $(if $(TEXTS),--texts $(TEXTS)) $(if $(SESSIONS),--sessions $(SESSIONS))

# Races 64 viewers of bin/gaterace with its editors, 100,000 looks, and once more with busy processors, after a demo.
race:
	@tools/race

# Finds the stuck-at faults that the stimulus of two circuits shows, with bin/gatebench, after a demo.
faults:
	@docs/examples/faults/faults.py

# Tries each mutant of every crate, or of one: make mutants CRATE=design
mutants:
	@tools/mutants $(CRATE)

# Times the proved programs over generated circuits (docs/BENCHMARKS.md).
speed:
	@tools/speed/run

# Runs bin/gatebench over inputs at the limits that might be slow, after a demo; it fails where one takes long (docs/BENCHMARKS.md).
slow:
	@tools/slow_inputs

# Lays out every source and proof file.
fmt:
	@for crate in crates/*/; do (cd $$crate && rt fmt) || exit 1; done
