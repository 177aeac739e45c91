# Two commands: `make run` shows the report of the first example, `make test` proves everything and runs the tests. Beside them
# `make check-docs` tries the names in the documents against the tree, by python3, and `make gate-cost` runs the gate from nothing and
# prints how many processor minutes it took.

.PHONY: run test check-docs gate-cost
run:
	cd crates/vt_cli && rt run -- run mmio < ../../examples/console/five_bytes.txt

test:
	rt ci

check-docs:
	python3 docs/check_names.py

# The shell's `time` tells the seconds of the gate and of all that it started, in user and in system mode.
gate-cost: SHELL := bash
gate-cost:
	@exec 3>&1 4>&2; TIMEFORMAT='%U %S'; \
	seconds=$$( { time rt ci --anew >&3 2>&4; } 2>&1 ) && \
	awk '{ printf "%.0f processor minutes\n", ($$1 + $$2) / 60 }' <<< "$$seconds"
