# The kit's commands. `make run` and `make test` are the two that a newcomer needs.
NETLIST ?= examples/and2.net
B ?= 0
F ?= 0

.PHONY: run test check-time examples judge bench plot fmt tools clean

# Prints the report on NETLIST: the faults marked with c up to B, with F frames behind the fault frame.
run: tools
	@scripts/build program report
	@scripts/report "$(NETLIST)" "$(B)" "$(F)"

# Proves every crate, tries every edit that the prover must refuse, and runs the Rust tests and the examples. What an earlier run on
# this machine proved of the same files is not proved again; rt ci --anew proves all.
# Prints what each part took, and last how many passed and failed.
test: tools
	@scripts/test

# Proves every crate from nothing at revision BASE and at commit HEAD, at the same time, and prints the processor seconds of each.
check-time: tools
	@scripts/check-time "$(BASE)"

# Builds the examples for C and Rust over the library, and runs them.
examples: tools
	@scripts/build staticlib capi
	@scripts/build-examples
	@target/examples/mark-c
	@target/examples/mark-rust

# Has Berkeley's model checker, which knows nothing of the kit, confirm the marks of eleven reports on the examples.
judge: tools
	@scripts/judge

# Times the library against the Rust model, in one run, and writes what is plotted to target/performance.dat.
# With BASE=REV it times the library of that revision and the library as it is, in turn, and prints the ratios.
bench: tools
	@scripts/bench "$(BASE)"

# Draws docs/performance.svg from the last run of the benchmark; where there is none, it is run.
plot: target/performance.dat
	@scripts/plot

target/performance.dat:
	@$(MAKE) --no-print-directory bench BASE=

# Brings every source into the layout of its language.
fmt: tools
	@for crate in crates/*/; do (cd "$$crate" && rt fmt) || exit; done
	cd tests && cargo fmt
	cd bench && cargo fmt
	cd judge && cargo fmt

# Sees that what the kit is built with is here.
tools:
	@scripts/tools

# Removes all that was built.
clean:
	rm -rf target tests/target bench/target judge/target crates/*/out
