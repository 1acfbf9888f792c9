.PHONY: help test list lib header-test declarations example vectors reference-test differential differential-test division-test proofs-test bench

# The first target: plain `make` starts nothing that takes long.
help:
	@echo 'make list < report     lists a report: its fields, checksum and attachment count, or its refusal'
	@echo 'make test              the gate: proves every crate, tries every must-fail edit, runs every program'
	@echo 'make lib               the library for C and Rust: lib/liblmr5.a and lib/liblmr5.so'
	@echo 'make example           the C of examples/ and of README.md over the library, with what it should print'
	@echo 'make header-test       compares include/lmr5.h with the code, and its version with the record of its declarations'
	@echo 'make declarations      writes that record anew, where the version has been raised'
	@echo 'make division-test     looks for a division by 255 in the sources and in the machine code of the library'
	@echo 'make proofs-test       compares the table of definitions in docs/PROOFS.md with the sources'
	@echo 'make differential      the independent implementation beside the library, on random cases'
	@echo 'make differential-test what the differential test has to find'
	@echo 'make reference-test    the tests of the independent implementation'
	@echo 'make vectors           makes the test vectors of the gate anew from the independent implementation'
	@echo 'make bench             measures each call beside Rust written for speed'

# $(call needs,NAME,TOOLS): says which tool is missing for `make NAME`.
needs = @for tool in $(2); do command -v $$tool >/dev/null || { echo "make $(1): $$tool is not on the PATH" >&2; exit 2; }; done

# Every program in C is compiled so.
c99 = gcc -std=c99 -Wall -Wextra -pedantic -Werror

# The same as the gate, with how far it is on standard error.
test:
	$(call needs,test,rt)
	@scripts/progress 'make test' all .ci/run

# What is built for use runs on every x86-64 processor; with no such flag rt builds for x86-64-v2, which has more instructions.
cpu = --cpu x86-64

# What rt reads. It writes to crates/NAME/out, where `rt ci` sets aside what it finds and builds anew for x86-64-v2; so what is
# built for use is copied to lib/.
crates = crates.txt $(shell find crates -name out -prune -o '(' -name '*.rt' -o -name '*.antt' ')' -print)

# Lists the report that standard input begins with: make list < report
list:
	$(call needs,list,rt)
	@[ ! -t 0 ] || { echo 'make list: no report on standard input; try: make list < crates/lister/stdin' >&2; exit 2; }
	@$(MAKE) --no-print-directory lib/lister </dev/null >/dev/null
	@lib/lister

# The lister, made anew where a source is newer, and run as the gate runs it.
lib/lister: $(crates) crates/lister/stdin crates/lister/stdout
	@scripts/progress 'make list' lister sh -c 'cd crates/lister && mkdir -p out && rt run $(cpu) <stdin >out/listed && cmp out/listed stdout' >/dev/null
	@mkdir -p lib && cp crates/lister/out/lister lib/lister

# The name under which a program loads the shared library: it has the major number of the version.
soname := liblmr5.so.$(shell awk '$$2 == "LMR5_VERSION_MAJOR" { print $$3 }' include/lmr5.h)

# The library for C and Rust programs, for include/lmr5.h, made anew where a source is newer. Its files come last, when the
# header and the numbers have been tried. lib/liblmr5.so names the shared library for the linker, and cannot itself be loaded: a
# program that asks for it was built before there were versions.
library = lib/liblmr5.a lib/$(soname) lib/liblmr5.so
lib: $(library)
	@echo 'make lib: lib/liblmr5.a and lib/liblmr5.so are up to date' >&2

sources = $(crates) include/lmr5.h header/declarations CHANGELOG.md docs/FORMAT.md header/refusals.c $(wildcard header/src/*.rs)

$(library) &: $(sources)
	$(call needs,lib,rt gcc cargo)
	@scripts/progress 'make lib' lmr5_c sh -c 'cd crates/lmr5_c && rt lib $(cpu)' >/dev/null
	@echo 'make lib: linking, and comparing the header with the code' >&2
	@mkdir -p lib
	@cp crates/lmr5_c/out/liblmr5_c.a lib/made.a
	gcc -shared -Wl,-soname,$(soname) -o lib/made.so -Wl,--whole-archive lib/made.a -Wl,--no-whole-archive
	@$(MAKE) --no-print-directory header-test
	$(c99) -Iinclude -o lib/refusals header/refusals.c lib/made.a
	lib/refusals
	@mv lib/made.a lib/liblmr5.a && mv lib/made.so lib/$(soname) && echo 'INPUT($(soname))' >lib/liblmr5.so

# Compares the header with what crates/lmr5_c exports, with the definitions and with the record of its declarations, and
# compiles it as C99 and, with g++, as C++.
header-test:
	$(call needs,header-test,gcc cargo)
	cd header && cargo test --quiet && cargo run --quiet -- ..
	$(c99) -fsyntax-only -x c include/lmr5.h
	! command -v g++ >/dev/null || g++ -Wall -Wextra -pedantic -Werror -fsyntax-only -x c++ include/lmr5.h

# Writes the record of the header's declarations anew, where the version has been raised as the changes ask. Once for each
# change that lands: to raise the version again before that, take the record back from git first.
declarations:
	$(call needs,declarations,cargo)
	cd header && cargo run --quiet -- .. record

# Looks for a division by 255 (FORMAT 2.4) in the sources and in the machine code of the library.
division-test: lib/liblmr5.a
	$(call needs,division-test,gcc objdump)
	@scripts/division lib/liblmr5.a

# Compares the table of definitions in docs/PROOFS.md with the sources.
proofs-test:
	@scripts/proofs

# Builds over the library the programs of examples/, the program of README.md as it stands there, and its fragment within
# examples/frame.c; one of them over the shared library. Runs them, and fails where something else comes out than
# examples/printed has.
example: $(library)
	$(call needs,example,gcc awk)
	@mkdir -p lib/readme
	scripts/snippets README.md lib/readme/program.c lib/readme/fragment
	$(c99) -O2 -Iinclude -o lib/correct examples/correct.c lib/liblmr5.a
	$(c99) -O2 -Iinclude -o lib/remark examples/remark.c -Llib -llmr5
	$(c99) -O2 -Iinclude -o lib/program lib/readme/program.c lib/liblmr5.a
	$(c99) -O2 -Iinclude -Ilib/readme -o lib/frame examples/frame.c lib/liblmr5.a
	scripts/examples $(soname) >lib/printed
	diff examples/printed lib/printed
	@cat lib/printed

# Makes the test vectors of the gate anew, byte for byte, from the independent implementation.
vectors:
	$(call needs,vectors,cargo)
	cd reference && cargo run --release --quiet --bin gate-reports -- ../crates/test_reports
	cd reference && cargo run --release --quiet --bin gate-scripts -- ../crates/test_scripts

# The tests of the independent implementation.
reference-test:
	$(call needs,reference-test,cargo)
	cd reference && cargo test --release

# The independent implementation beside lib/liblmr5.a: make differential SEED=.. CALLS=.., or ONLY=.. for one case.
SEED = 1
CALLS = 2000000
ONLY =
differential: lib/liblmr5.a
	$(call needs,differential,cargo)
	@cd differential && cargo run --release --quiet -- $(SEED) $(CALLS) $(ONLY)

# What the differential test has to find, tried with a stand-in for the library.
differential-test:
	$(call needs,differential-test,cargo)
	cd differential && cargo test --release --lib

# Measures each call beside plain Rust written for speed, or one call: make bench BENCH=judge
bench: lib/liblmr5.a
	$(call needs,bench,cargo)
	cd bench && cargo run --release --quiet -- $(BENCH)
