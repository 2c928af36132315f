# make test    every check of the project; its last line is that of rt ci, 'N passed, 0 failed'
# make prove   rt ci alone: every crate that has changed proved from nothing, its must-fail edits tried, every program run
# make built   the tests of what is built: the library against its reference, the program card, damaged journals, README's commands
# make run     the battery swap, told by the program card
# make soak    the library held against the reference for as long as you like
# make radio   a box and its host over a radio that loses, repeats and reorders: the books compared at the end
# make bench   what each call costs, beside plain C: docs/BENCHMARK.md
# make times   how long the last make test took, and where: docs/TIMES.md

.PHONY: test prove built run soak radio bench times

test:
	@tests/gate

prove:
	@rt ci

built:
	@tests/built

run:
	@tests/needs rt
	@tests/program card
	@examples/tell examples/battery.script

soak:
	@tests/run --soak

radio:
	@tests/run --radio

bench:
	@bench/run

times:
	@tests/times
