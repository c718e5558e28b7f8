# The commands: `make demo` runs the step program on configuration C and its session, `make refuse` plants the fault of the lost
# scene in a copy and shows the prover refuse it, `make test` is the whole gate. Beside them `make bench` measures the proved
# library beside ordinary Rust, writes docs/BENCHMARKS.md, and holds the rows that the machine code loads against the definition.
.PHONY: demo refuse test bench

demo:
	@bin/progress "make demo" rt run step
	@echo "Configuration C and its session (G, ARM, tick, G, ARM, tick, tick, G, PAD, fault 7, fault 7, fault 8):"
	@bin/step crates/step/data/path.cfg < crates/step/stdin

refuse:
	@bin/refuse

test:
	@bash .ci/run

bench:
	@bin/archive "make bench"
	@bin/instructions > target/instructions
	@bin/cargo run -q --locked --release -p bench -- --write docs/BENCHMARKS.md --instructions target/instructions
	@bin/rows --check
