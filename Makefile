# `make` proves and builds the program, `make example` compiles the shipped shader, runs its image over four words and shows
# the lines that are printed and the words afterwards, `make test` is the gate. `make try` compiles the shader with no proof.

PROGRAM := crates/slangc/out/slangc

.PHONY: all example test try

all:
	cd crates/slangc && { rt run -- > /dev/null; test -x out/slangc; }

example: all
	cd examples/increment && ../../$(PROGRAM) compile a.main a.spv a && ../../$(PROGRAM) run a.spv main 4 1 1 100 buffers.txt out && cat out

test:
	rt ci

try:
	cd crates/slangc && rt try --data a.slang=../../examples/increment/a.slang -- compile a.main a.spv a
	@echo 'nothing is proved by this: make proves and builds the program'
