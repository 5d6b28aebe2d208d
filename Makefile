.PHONY: kit test prove run bench soak

# Everything here needs the Rattle kit.
run test prove bench soak: kit
kit:
	@command -v rt > /dev/null || { echo "make: the command rt is not there. It belongs to the Rattle kit; README.md says which one." >&2; exit 1; }

# Proves and builds the programs, and asks them about the example towns.
run:
	programs/build arrivals
	programs/build sheet
	programs/build to_new
	programs/build to_old
	examples/run

# The gate: prove everything, try the must-fail edits, run the programs and the tests.
test:
	bash .ci/run

# The proofs alone, of what has changed.
prove:
	rt all check --jobs $$(nproc)

# Measures the operations beside the Rust program's: the tables of docs/BENCHMARK.md.
bench:
	tests/build exports cabinet
	cargo run --release --offline --quiet --manifest-path compare/Cargo.toml --bin bench

# Compares with the Rust program on ever new inputs: make soak SEED=7 MINUTES=10
SEED = 1
MINUTES = 5
soak:
	tests/build exports cabinet arrivals sheet to_new to_old
	cargo run --release --offline --quiet --manifest-path compare/Cargo.toml --bin soak -- $(SEED) $(MINUTES)
