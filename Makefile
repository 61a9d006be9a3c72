# The commands of the README. Each needs the Rattle toolchain (`rt`), cargo and a C compiler; `fuzz` needs clang, and `planted`
# and `definitions` need Python 3. To measure the stack, `test` and `bench` need Python 3 and an objdump that reads x86-64 code.
.PHONY: demo test bench fuzz planted definitions

# Walks one course through a card, step by step, with the proved library.
demo:
	@scripts/demo

# Checks layout, proofs, must-fail edits, programs, stack, C and Rust tests; ends in 'N passed, M failed'.
test:
	@scripts/test

# Measures times and instructions beside C and Rust, and stack and code: the figures of docs/PERFORMANCE.md.
bench:
	@scripts/bench

# Fuzzes for a minute, guided by coverage, under the address sanitiser; `scripts/fuzz 3600` fuzzes for an hour.
fuzz:
	@scripts/fuzz

# Plants errors in the reference, one at a time; the comparison must report each.
planted:
	@scripts/test-planted

# Plants wrong definitions in the profile, one at a time; a worked case or a theorem must refuse each.
definitions:
	@scripts/test-definitions
