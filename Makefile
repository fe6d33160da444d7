# Each target is one command on a machine with the kit.

# Runs the program on the example script (builds it first, which takes a minute).
example:
	cd crates/bullfrog && rt try -- try < ../../examples/customer_split.sql

# Proves the program and leaves it at build/bullfrog: about an hour and a half on four processors, and
# a minute behind the gate.
program:
	python3 bench/program.py

# Proves everything, tries the edits that must be refused, and runs every test: the merge gate.
test:
	rt ci

# Holds the scripts and reports of the documents against the cases that the gate runs.
docs:
	python3 bench/pages.py

.PHONY: docs example program test
