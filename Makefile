# The commands of this repository. They need the Rattle kit's `rt`, and Python 3 for the cases and the benchmarks.

PROGRAM := crates/upfsign/out/upfsign
PROBE := crates/probe/out/probe
DIAGRAMS := crates/bench/out/bench
SOURCES := crates.txt $(shell find crates -name '*.rt' -o -name '*.antt')
EXAMPLE := examples/first-path
# A job without findings, so that its run ends with exit status 0.
CLEAN_JOB := flat -lib ../../$(EXAMPLE)/cells.lib -net ../../$(EXAMPLE)/ab.v -upf ../../$(EXAMPLE)/always_on.upf -top top

.PHONY: demo test cases bench hostile beside

# The report of the example. Its one finding is exit status 1.
demo: $(PROGRAM)
	@cd $(EXAMPLE) && { ../../$(PROGRAM) flat -lib cells.lib -net ab.v -upf base.upf -top top; test $$? -eq 1; }

# The gate, then the tables of calls and cases on the programs, then whether the page of definitions is in step.
test:
	rt ci
	$(MAKE) cases
	python3 docs/definitions.py

cases: $(PROGRAM) $(PROBE)
	python3 tests/calls.py $(PROBE)
	python3 tests/tables.py
	python3 tests/readers.py $(PROBE)
	python3 tests/run.py $(PROGRAM)

bench: $(PROGRAM) $(DIAGRAMS) $(PROBE)
	python3 bench/first_form.py $(PROGRAM) --big
	python3 bench/diagrams.py $(DIAGRAMS)
	python3 bench/designs.py $(DIAGRAMS)
	python3 bench/colliding.py $(PROBE)

# Texts that are made to be hard for the readers and for the making of a design.
hostile: $(DIAGRAMS)
	cd examples/synthesized && ../../$(DIAGRAMS) netlist cells.lib mapped.v soc | diff counts.txt -
	python3 tests/hostile.py $(DIAGRAMS)
	python3 bench/shapes.py $(DIAGRAMS)

# Our readers beside OpenSTA, on made netlists and on what Yosys writes: both are packages of Debian.
beside: $(DIAGRAMS)
	python3 bench/readers.py $(DIAGRAMS)
	python3 bench/synthesized.py $(DIAGRAMS)

# Proves the program and all crates below it, and builds it.
$(PROGRAM): $(SOURCES)
	cd crates/upfsign && rt run -- $(CLEAN_JOB)

$(DIAGRAMS): $(SOURCES)
	cd crates/bench && rt run -- chain-walk 100

$(PROBE): $(SOURCES)
	cd crates/probe && rt run < stdin
