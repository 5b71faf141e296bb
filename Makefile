# Runs, builds and proves vf through the kit alone.

.PHONY: help run build test

help:
	@echo "make run    compiles vf without its proofs, and runs examples/one through it"
	@echo "make build  proves vf crate by crate, and puts it at build/vf"
	@echo "make test   the gate: proves every crate, tries wrong bodies, and runs every test, case and example"

run:
	@echo "vf as its sources stand, compiled without a proof; 'make build' proves it, and 'make test' all that is promised"
	@cd crates/vf && rt try --data schedule.json=../../examples/one/schedule.json --data one.c=../../examples/one/one.c \
		-- run schedule.json one.c

build:
	@tools/build

test:
	@.ci/run
