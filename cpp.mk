# The C++ side: the header's check, the example, the test of the C entry, the benchmark.
#
#     cpp-test          cpp-header, cpp-example, cpp-suite, cpp-column and cpp-small
#     cpp-header        the header compiles as C99 and as C++17, by itself
#     cpp-example       builds and runs the example, and compares what it prints
#     cpp-suite         builds and runs the hard test of the C entry
#     cpp-column        builds and runs the test of the column call at its limits
#     cpp-small         library and plain C++ agree on small grids, runs, files, outlines and accounts
#     cpp-bench         times the library against plain C++; under an emulator it is cpp-instructions
#     cpp-instructions  instructions per cell of lists, outlines and accounts, counted by the emulator
#     cpp-objects       compiles the tests and the benchmarks, and links none
#     cpp-tools         installs what cpp-test and cpp-bench need and the machine lacks, by apt-get: on x86-64 g++; on
#                       another processor g++-x86-64-linux-gnu, qemu-user and g++
#
# The archives that rt writes, crates/NAME/out/libNAME.a, are for x86-64. There the programs run directly; on another
# processor a cross compiler builds them and qemu's user emulation runs them. All that is built goes to target/cpp.
#
#     CPP_MACHINE   the processor to choose by, unless it is to be this machine's
#     CPP_LIBRARY   the archive of the C entry, unless it is to be the one that rt writes
#     CPP_METERS    the folder of the archives of the other calls that are timed, libmeter_*.a, likewise

CPP_MACHINE ?= $(shell uname -m)
CPP_LIBRARY ?= crates/suite/out/libsuite.a
CPP_METERS ?=
CPP_OUT := target/cpp
CPP_FLAGS := -std=c++17 -O2 -Wall -Wextra -Wpedantic -Iinclude -Ibench -Itests/suite
CPP_REFERENCE := bench/places.hpp bench/reference.hpp bench/sweep.hpp
CPP_TABLES := bench/instructions.hpp bench/tables.hpp bench/times.hpp

# What depends on a tool is worked out when it is used, so that `make cpp-tools cpp-test` finds what was installed.
CPP_EMULATOR = $(shell command -v qemu-x86_64 || command -v qemu-x86_64-static || echo qemu-x86_64)

# CPP_NEEDED has a word for each tool: the command, and Debian's package that has it.
ifeq ($(CPP_MACHINE),x86_64)
CPP_CXX = $(CXX)
CPP_EMULATE = $(CPP_EMULATOR)
CPP_RUN =
CPP_NEEDED = $(CXX):g++
CPP_SANITIZE := -g -fsanitize=address,undefined -fno-sanitize-recover=all
CPP_PART :=
CPP_HOW :=
else
CPP_CXX = x86_64-linux-gnu-g++
# The cross compiler's C library takes the place of /lib.
CPP_EMULATE = $(CPP_EMULATOR) -L $(dir $(realpath $(shell $(CPP_CXX) -print-file-name=libc.so.6)))..
CPP_RUN = $(CPP_EMULATE)
CPP_NEEDED = $(CPP_CXX):g++-x86-64-linux-gnu $(CPP_EMULATOR):qemu-user $(CXX):g++
# Without the address sanitizer: its map of all memory eats up the machine's under the emulator. The pages and bytes
# that guard what the hard test lends work there as they do on x86-64.
CPP_SANITIZE := -g -fsanitize=undefined -fno-sanitize-recover=all
# Of its small grids the hard test takes one in so many, to be done in a minute and not in several.
CPP_PART := 7
CPP_HOW := , emulated
endif

.PHONY: cpp-test cpp-header cpp-example cpp-suite cpp-column cpp-small cpp-bench cpp-instructions cpp-tools cpp-ready
.PHONY: cpp-always cpp-objects

cpp-test: cpp-header cpp-example cpp-suite cpp-column cpp-small

cpp-header: | cpp-ready
	@$(CPP_CXX) -x c -std=c99 -Wall -Wextra -Wpedantic -Werror -fsyntax-only include/mayexoton.h
	@$(CPP_CXX) -x c++ -std=c++17 -Wall -Wextra -Wpedantic -Werror -fsyntax-only include/mayexoton.h
	@echo "header: compiles as C99 and as C++17"

cpp-example: $(CPP_OUT)/example
	@$(CPP_RUN) $< > $(CPP_OUT)/example.out
	@diff examples/suite/expected $(CPP_OUT)/example.out
	@echo "example$(CPP_HOW): prints what is expected"

cpp-suite: $(CPP_OUT)/suite_test
	@printf 'hard test$(CPP_HOW): '; $(CPP_RUN) $< $(CPP_PART)

cpp-column: $(CPP_OUT)/column_test
	@printf 'column at its limits$(CPP_HOW): '; $(CPP_RUN) $<

cpp-small: $(addprefix cpp-small-,bench calls outlines accounts)

cpp-small-%: $(CPP_OUT)/%
	@agreed=$$($(CPP_RUN) $< --small) && echo "$* on small grids$(CPP_HOW): $$agreed"

ifeq ($(CPP_MACHINE),x86_64)
cpp-bench: $(CPP_OUT)/bench $(CPP_OUT)/calls $(CPP_OUT)/outlines $(CPP_OUT)/accounts
	@$(CPP_OUT)/bench
	@echo
	@python3 bench/callgrind.py list $(CPP_OUT)/bench
	@echo
	@$(CPP_OUT)/calls
	@echo
	@$(CPP_OUT)/outlines
	@echo
	@$(CPP_OUT)/accounts
	@echo
	@python3 bench/callgrind.py accounts $(CPP_OUT)/accounts
else
cpp-bench: cpp-instructions
endif

# An emulator that was linked statically takes no plugin; the benchmark then has no counter, and says so. The processor
# is named because newer ones move memory by instructions that the emulator counts anew for each byte.
cpp-instructions: $(CPP_OUT)/bench $(CPP_OUT)/outlines $(CPP_OUT)/accounts $(CPP_OUT)/example $(CPP_OUT)/libcounter.so
	@command -v $(CPP_EMULATOR) > /dev/null || { echo "qemu-x86_64 is missing; Debian: qemu-user" >&2; exit 1; }
	@plugin='-plugin $(CPP_OUT)/libcounter.so'; \
	$(CPP_EMULATE) $$plugin $(CPP_OUT)/example > $(CPP_OUT)/plugin.log 2>&1 || plugin=; \
	$(CPP_EMULATE) -cpu qemu64 $$plugin $(CPP_OUT)/bench --work && echo && \
	$(CPP_EMULATE) -cpu qemu64 $$plugin $(CPP_OUT)/outlines --work && echo && \
	$(CPP_EMULATE) -cpu qemu64 $$plugin $(CPP_OUT)/accounts --work

# Programs are compiled by themselves, so that it can be done while their archives are proved.
CPP_PROGRAMS := $(addprefix $(CPP_OUT)/,example suite_test column_test bench calls outlines accounts)
CPP_HARD := $(CPP_OUT)/suite_test $(CPP_OUT)/column_test
CPP_OBJECTS := $(CPP_PROGRAMS:=.o)

cpp-objects: $(CPP_OBJECTS)

$(CPP_OUT)/example.o: examples/suite/example.cpp include/mayexoton.h
$(CPP_OUT)/suite_test.o: tests/suite/suite_test.cpp tests/suite/definitions.hpp tests/suite/room.hpp include/mayexoton.h
$(CPP_OUT)/column_test.o: tests/suite/column_test.cpp tests/suite/room.hpp bench/meter.hpp
$(CPP_OUT)/bench.o: bench/bench.cpp bench/grids.hpp bench/instructions.hpp $(CPP_REFERENCE) bench/times.hpp \
    include/mayexoton.h
$(CPP_OUT)/calls.o: bench/calls.cpp bench/batches.hpp bench/grids.hpp bench/lent.hpp bench/meter.hpp \
    $(CPP_REFERENCE) bench/runfile.hpp bench/times.hpp include/mayexoton.h
$(CPP_OUT)/outlines.o: bench/outlines.cpp bench/grids.hpp bench/lent.hpp bench/made_up_grids.hpp \
    bench/made_up_outlines.hpp bench/meter.hpp bench/outline.hpp $(CPP_REFERENCE) $(CPP_TABLES) \
    tests/suite/definitions.hpp include/mayexoton.h
$(CPP_OUT)/accounts.o: bench/accounts.cpp bench/account.hpp bench/grids.hpp bench/lent.hpp bench/made_up_accounts.hpp \
    bench/made_up_claims.hpp bench/made_up_grids.hpp bench/meter.hpp $(CPP_REFERENCE) $(CPP_TABLES) \
    tests/suite/accounts.hpp tests/suite/definitions.hpp include/mayexoton.h

$(CPP_HARD:=.o) $(CPP_HARD): CPP_FLAGS += $(CPP_SANITIZE)
$(CPP_OBJECTS): | cpp-ready $(CPP_OUT)
	@$(CPP_CXX) $(CPP_FLAGS) -c $< -o $@

# Each program is linked with the archives that its line names.
$(CPP_OUT)/example $(CPP_OUT)/suite_test $(CPP_OUT)/bench: $(CPP_OUT)/libsuite.a
$(CPP_OUT)/column_test: $(CPP_OUT)/libmeter_runs.a
$(CPP_OUT)/calls: $(CPP_OUT)/libsuite.a $(CPP_OUT)/libmeter_runs.a $(CPP_OUT)/libmeter_files.a
$(CPP_OUT)/outlines: $(CPP_OUT)/libsuite.a $(CPP_OUT)/libmeter_runs.a
$(CPP_OUT)/accounts: $(CPP_OUT)/libsuite.a $(CPP_OUT)/libmeter_accounts.a
$(CPP_PROGRAMS): %: %.o
	@$(CPP_CXX) $(CPP_FLAGS) $(filter %.o,$^) $(filter %.a,$^) -o $@

# For this machine, as the emulator is.
$(CPP_OUT)/libcounter.so: bench/counter.cpp bench/instructions.hpp | $(CPP_OUT)
	@$(CXX) $(CPP_FLAGS) -fPIC -shared $< -o $@

# Copies that change only when the archives do: rt writes an archive each time.
CPP_COPIES := $(patsubst %,$(CPP_OUT)/lib%.a,suite meter_runs meter_files meter_accounts)
$(CPP_OUT)/libsuite.a: $(CPP_LIBRARY)
$(CPP_OUT)/libmeter_runs.a: $(or $(CPP_METERS),crates/meter_runs/out)/libmeter_runs.a
$(CPP_OUT)/libmeter_files.a: $(or $(CPP_METERS),crates/meter_files/out)/libmeter_files.a
$(CPP_OUT)/libmeter_accounts.a: $(or $(CPP_METERS),crates/meter_accounts/out)/libmeter_accounts.a
$(CPP_COPIES): | $(CPP_OUT)
	@cmp -s $< $@ || cp $< $@

CPP_ARCHIVES := $(foreach name,suite meter_runs meter_files meter_accounts,crates/$(name)/out/lib$(name).a)
CPP_CRATE = $(patsubst lib%.a,%,$(@F))
$(CPP_ARCHIVES): cpp-always | $(CPP_OUT)
	@echo "archive: proving $(CPP_CRATE) and each crate below it that changed, for $@; some minutes the first time" >&2
	@(cd crates/$(CPP_CRATE) && rt lib) > $(CPP_OUT)/lib-$(CPP_CRATE).log 2>&1 \
	    || { cat $(CPP_OUT)/lib-$(CPP_CRATE).log >&2; exit 1; }

$(CPP_OUT):
	@mkdir -p $@

cpp-ready:
	@for need in $(CPP_NEEDED); do \
	    command -v "$${need%%:*}" > /dev/null && continue; \
	    echo "$${need%%:*} is missing; make cpp-tools installs it" >&2; exit 1; \
	done

cpp-tools: | $(CPP_OUT)
	@packages=; \
	for need in $(CPP_NEEDED); do \
	    command -v "$${need%%:*}" > /dev/null || packages="$$packages $${need##*:}"; \
	done; \
	test -n "$$packages" || exit 0; \
	echo "tools: installing$$packages by apt-get" >&2; \
	root=; test "$$(id -u)" = 0 || root='sudo -n'; \
	install="$$root env DEBIAN_FRONTEND=noninteractive apt-get install -y --no-install-recommends $$packages"; \
	if { $$install || { $$root apt-get update && $$install; }; } > $(CPP_OUT)/tools.log 2>&1; \
	then echo "installed:$$packages"; \
	else echo "cannot install:$$packages; $(CPP_OUT)/tools.log says why. Install them by hand" >&2; exit 1; \
	fi
