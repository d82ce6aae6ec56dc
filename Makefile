# make run proves and builds the programs that read a run file, and shows what they print of a grid of three rows: its
# list, then its outline.
# make test runs everything that can fail; its last line is 'N passed, 0 failed'.
# make bench compares the library with plain C++: the list, the outline, the account and its check, the run file; a
# column call, an outline and an account also with a list.
# make layout lays out every file of Rattle and antt; rt ci refuses one that is not laid out.
# Each says on standard error what it is doing and for how long.
.PHONY: test run bench layout pages tools peaks outlines built-peaks built-outlines

test:
	@echo "test: pages, tools, all proofs and must-fail edits, C++ tests, the programs' files" >&2
	@.ci/run

# rt runs each program on the file stdin of its crate. Of what rt says, a line on each crate that it checks is shown, and
# all of it if something is not proved. The executables go to target/bin.
run:
	@mkdir -p target/bin
	@for program in peaks outlines; do \
	    echo "run: proving $$program and each crate below it that changed; some minutes the first time" >&2; \
	    { (cd crates/$$program && rt run < stdin 2>&1 > ../../target/$$program.stdout); echo $$? > target/run.status; } \
	        | tee target/run.log | sed -u -n 's/^crate \([a-z_]*\): .*/run: \1 is checked/p' >&2; \
	    test "$$(cat target/run.status)" = 0 || { cat target/run.log >&2; exit 1; }; \
	    cp crates/$$program/out/$$program target/bin/; \
	done
	@cat target/peaks.stdout target/outlines.stdout

bench: cpp-tools
	@echo "bench: times on x86-64, counts of instructions elsewhere, with plain C++ beside; some minutes" >&2
	@$(MAKE) --no-print-directory cpp-bench

layout:
	@for crate in crates/*/; do (cd $$crate && rt fmt) || exit 1; done
	@echo "layout: every file is in it"

pages:
	@python3 tests/pages/pages_test.py

tools:
	@python3 tests/tools/runfile_test.py

peaks outlines: %: run | cpp-ready
	@python3 tests/$*/$*_test.py $(CPP_RUN) target/bin/$*

# The programs as rt ci left them, built by LLVM and by Rattle's own compiler, if that builds them.
built-peaks built-outlines: built-%: | cpp-ready
	@python3 tests/$*/$*_test.py $(CPP_RUN) crates/$*/out/$*
	@test ! -e crates/$*/out/$*.by-rattle || python3 tests/$*/$*_test.py $(CPP_RUN) crates/$*/out/$*.by-rattle

include cpp.mk
