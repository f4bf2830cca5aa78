# demo: compiles and runs the example of README.md
# go, compile, ref, run: your own files: make go KERNEL=k.c INPUTS=k.txt, compile KERNEL=, ref KERNEL= INPUTS=, run NETLIST= INPUTS=
# try: makes the program without its proofs, in 2 to 4 minutes (.try/elastic); the targets above do so where there is none
# install: copies the program, the manual page and the completions below ~/.local (PREFIX=FOLDER: another place)
# rows: runs all test cases on programs made without proofs, in some ten minutes of processor time; it proves nothing
# build: proves the program and all below it: crates/elastic/out/elastic; from scratch it takes most of the time of make test
# test: continuous integration, rt ci: every proof, every program, and the mutants of must-fail/
# clients: tests the tools of tools/use and examples/clients, the examples and the manual (PROGRAM=FILE: with that program)
# documents: checks README.md and docs/: names, long sentences, numbers of words, counted numbers, and the list of causes of "out of memory"
# load: stress tests of the proved program: limits, saved states, small stacks, failed allocations, workers (PROGRAM=FILE: of that)
# bench: times the compiler and runs: make bench BENCH="front ref"; tools/measure/bench.py --list names them (PROVED=1: proved ones)
# help: these lines

.PHONY: demo go compile ref run try install rows build test clients documents load bench help

KERNEL = examples/hist/kernel.c
NETLIST = examples/net/net.txt
# Inputs go with the kernel or the netlist of the examples; with one of your own they must be named.
OWN_KERNEL = $(filter-out file default,$(origin KERNEL))
OWN_NETLIST = $(filter-out file default,$(origin NETLIST))
INPUTS = $(if $(OWN_KERNEL),,examples/hist/inputs.txt)
PREFIX = ~/.local
PROGRAM =
PROVED =
BENCH =

# Runs the program, which is made where it is not there, and explains an error line after a refusal: COMMAND FILE.. -- OPTION..
RUN = python3 tools/use/program.py run

# Refuses a target whose file is not named.
NAMED = test -n $(2) || { echo 'elastic: $@ takes $(1)=FILE' >&2; exit 1; }

demo:
	@echo 'elastic go examples/hist/kernel.c examples/hist/inputs.txt --depth 16 --count --cycles prints:' >&2
	@$(RUN) go examples/hist/kernel.c examples/hist/inputs.txt -- --depth 16 --count --cycles

go:
	@$(call NAMED,INPUTS,"$(INPUTS)")
	@$(RUN) go "$(KERNEL)" "$(INPUTS)" -- --count --cycles

compile:
	@$(RUN) compile "$(KERNEL)"

ref:
	@$(call NAMED,INPUTS,"$(INPUTS)")
	@$(RUN) ref "$(KERNEL)" "$(INPUTS)" -- --count

run: INPUTS = $(if $(OWN_NETLIST),,examples/net/inputs.txt)
run:
	@$(call NAMED,INPUTS,"$(INPUTS)")
	@$(RUN) run "$(NETLIST)" "$(INPUTS)" -- --count --cycles

try:
	@python3 tools/use/program.py try

install:
	@python3 tools/use/program.py install "$(PREFIX)"

rows:
	@tools/house/try_rows.py

build:
	@python3 tools/use/program.py build

test:
	rt ci

clients:
	@program="$(PROGRAM)"; program=$${program:-$$(python3 tools/use/program.py try)} && \
	tools/house/examples.py "$$program" && \
	tools/house/clients.py --program "$$program" && \
	tools/house/check_explain.py --program "$$program" && \
	tools/house/check_mend.py --program "$$program" && \
	tools/house/manual.py check "$$program"

documents:
	@tools/house/map.py names
	@tools/house/map.py sentences
	@tools/house/map.py counted
	@tools/house/memories.py > /dev/null

load:
	@tools/measure/load.sh $(PROGRAM)

bench: $(if $(PROVED),build)
	@tools/measure/benches.py check
	@tools/measure/bench.py $(BENCH)

help:
	@sed -n 's/^# //p;/^$$/q' Makefile
