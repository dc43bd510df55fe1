.PHONY: help run test test-all prove sums edits trust lib lib-unproved

# how long these took on 4 processors from nothing, each after the one before it; the first two beside proofs
RUN_SECONDS = 173
TEST_MINUTES = 22
PROVE_MINUTES = 18
EDITS_MINUTES = 107

# lists the targets
help:
	@echo 'make run     answers the statements of standard input: with the proved program, if these sources were proved,'
	@echo '             else with one that it compiles without a proof: in $(RUN_SECONDS) seconds, on 4 processors'
	@echo 'make test    tests what make run and make lib-unproved built: $(TEST_MINUTES) minutes; the last line is the sum'
	@echo 'make test-all  the same with all seeds, clients and places of its searches'
	@echo 'make prove   proves the program and the library, and puts them in place of the unproved ones:'
	@echo '             $(PROVE_MINUTES) minutes the first time; later what changed, and what is above it'
	@echo 'make edits   tests that the prover refuses the wrong bodies, with OF="NAME .." only those of these crates:'
	@echo '             $(EDITS_MINUTES) minutes, after make prove'
	@echo 'make trust   prints what a reader must read to know what is promised, and counts it;'
	@echo '             OF=--count: only the numbers'
	@echo 'make lib     proves the library for C and Python: lib/libcrackd.so and lib/crackd.h; the package finds it'
	@echo 'make lib-unproved  the same without a proof, in a minute: lib/libcrackd-unproved.so, to which lib/libcrackd.so'
	@echo '             is a link; nothing is compiled if the library was proved with these sources'
	@echo 'make sums    proves all that users run, and writes proved.txt: where the sources are the same, others compile'
	@echo '             them without checks'

run:
	@python3 tools/build.py run script

test:
	@python3 tools/tests.py

test-all:
	@python3 tools/tests.py --all

prove:
	@python3 tools/build.py proved

sums:
	@python3 tools/sums.py

edits:
	@python3 tools/edits.py $(OF)

trust:
	@python3 tools/trust.py $(OF)

lib:
	@python3 tools/build.py proved-library

lib-unproved:
	@python3 tools/build.py library
