# make run       print the listing of a plan: PLAN=examples/case-a.plan unless another is named
# make test      prove every crate, try the edits that must be refused, run all tests;
#                the last line is 'N passed, 0 failed'
# make quick     what make test begins with: files that scripts make, the reference held to rules, ranks, runs and maps, docs/TRACE.md
# make wrong     try every edit that must be refused, those too for which make test has no time (crates/*/wrong)
# make lib       the C library, target/staticlib/libgate.a (header: include/gate.h)
# make c-test    the C library's tests and examples, and the header's in C and C++
# make compare   hold the C library to a planner in Rust, byte for byte over COUNT inputs made from SEED
# make bench     time the two beside each other, and contest, warning time, trimming and carrying back in the program bench_plans: the
#                best of RUNS runs (4 are enough)
# make trace     check that all that docs/TRACE.md names is there

.PHONY: run plan test quick wrong kit list-test lib c-test header-test example-test compare bench trace
.SILENT:
.NOTPARALLEL:
.DELETE_ON_ERROR:

SHELL = /bin/bash

PLAN ?= examples/case-a.plan
export PLAN

SOURCES = crates.txt $(shell find crates \( -name must-fail -o -name wrong -o -name out \) -prune -o -type f -print)

# Runs rt in a crate's folder and shows its lines on the crates as they come. All else that it says is in a log, which is shown if
# it refuses one.
prove = set -o pipefail; mkdir -p target; \
    (cd crates/$(1) && rt $(2) </dev/null) 2>&1 | tee target/$(1).log | sed -un '/^rt: /p' >&2 || { cat target/$(1).log >&2; exit 1; }

run: plan kit target/bin/list
	target/bin/list <"$$PLAN"

# Looked for before anything is proved for it.
plan:
	[ -e "$$PLAN" ] || { echo "make run: there is no file '$$PLAN'" >&2; exit 1; }
	[ -r "$$PLAN" ] && [ ! -d "$$PLAN" ] || { echo "make run: '$$PLAN' cannot be read" >&2; exit 1; }

target/bin/list target/bin/bench_plans: target/bin/%: $(SOURCES)
	echo "proving the program $* and the crates that it is built on, which can take some minutes" >&2
	$(call prove,$*,run)
	mkdir -p $(@D) && cp crates/$*/out/$* $@

# `rt ci`, and then the tests. They build the library and the program, and so prove them once more: `rt ci` leaves nothing of that.
test: kit need-gcc need-g++ need-cargo quick
	tests/gate.sh

# What needs nothing proved comes first, so that it fails early.
quick: kit trace
	cd tests && python3 -B contest.py && python3 -B rules.py && python3 -B trims.py && python3 -B carries.py && python3 -B bench_plans.py --check && \
	    python3 -B examples.py --check

wrong: kit
	tests/wrong.sh

# The listing program on every example, and on plans of many shapes; on zero bytes, refused past the limit (8),
# at the limit by their first tag (3), and where there are none (1); where it cannot read or write; and `make run`.
# The program works digits out, so no table of digits or of digit pairs may be in it, nor eight bytes in a row
# of one.
list-test: kit need-python3 target/bin/list
	for p in examples/*.plan; do target/bin/list <$$p | cmp - $${p%.plan}.listing || exit 1; done
	for c in 65537:8 65536:3 0:1; do \
	    echo "refused $${c#*:}" >target/refused; \
	    head -c $${c%:*} /dev/zero | target/bin/list | cmp - target/refused || { echo "list-test: $${c%:*} zero bytes" >&2; exit 1; }; \
	done
	cd tests && python3 -B list_plans.py ../target/bin/list
	python3 -B tests/list_errors.py target/bin/list
	python3 -B tests/digit_table.py target/bin/list
	tests/run.sh

# The Rattle kit. Another one than README.md names is no error: its prover judges every file as well.
kit:
	command -v rt >/dev/null || { echo "rt, the command of the Rattle kit, is not on the PATH" >&2; exit 1; }
	is=$$(rt version); named=$$(sed -n 's/.*`\(rattle-kit-[^`]*\)`.*/\1/p' README.md); \
	    [ "$$is" = "$$named" ] || echo "warning: this kit is '$$is', README.md names '$$named'" >&2

# A command that Debian has, installed where it is missing.
PACKAGES_gcc = gcc libc6-dev
need-%:
	command -v $* >/dev/null || { echo "installing $*" >&2; apt-get update -qq && \
	    apt-get install -y -qq $(or $(PACKAGES_$*),$*); } >/dev/null

LIB = target/staticlib/libgate.a

lib: kit $(LIB)

$(LIB): $(SOURCES)
	echo "proving the C library and the crates that it is built on, which can take some minutes" >&2
	$(call prove,gate,lib)
	mkdir -p $(@D) && cp crates/gate/out/libgate.a $@

# With gcc's checks on the C side.
C_WARN = -Wall -Wextra -Wpedantic -Wconversion -Werror -O1 -g -Iinclude
C_FLAGS = -std=c11 $(C_WARN)
C_SANITIZE = -fsanitize=address,undefined -fno-sanitize-recover=all
C_TESTS = $(addprefix tests/c/, main check lend plans trials read decide search largest limits threads)
C_STACK = $(addprefix tests/c/, stack check lend plans trials read decide search largest)
C_HEADER = tests/c/header.c tests/c/check.c

c-test: kit need-gcc $(LIB) header-test example-test
	tests/c/archive.sh $(LIB)
	gcc $(C_FLAGS) $(C_SANITIZE) -pthread $(C_TESTS:=.c) $(LIB) -o target/c/tests
	gcc $(C_FLAGS) -pthread -Wl,-z,now $(C_STACK:=.c) $(LIB) -o target/c/stack
	target/c/stack
	target/c/tests

# The header's own functions, in the languages that it is for.
header-test: kit need-gcc need-g++ $(LIB)
	mkdir -p target/c
	for std in c99 c11 c17; do \
	    gcc -std=$$std $(C_WARN) $(C_SANITIZE) $(C_HEADER) $(LIB) -o target/c/header-$$std || exit 1; \
	done
	for std in c++11 c++17; do \
	    g++ -std=$$std $(C_WARN) -Wold-style-cast $(C_SANITIZE) -x c++ $(C_HEADER) -x none $(LIB) -o target/c/header-$$std || exit 1; \
	done
	for std in c99 c11 c17 c++11 c++17; do printf 'the header as %s: ' $$std; target/c/header-$$std || exit 1; done
	tests/c/refusals.sh target/c/header-c11 target/c

example-test: kit need-gcc $(LIB)
	mkdir -p target/c
	for program in hold walk; do \
	    gcc $(C_FLAGS) $(C_SANITIZE) examples/c/$$program.c examples/c/plan.c $(LIB) -o target/c/$$program || exit 1; \
	done
	tests/c/examples.sh target/c/hold target/c/walk target/c

COUNT ?= 200000
SEED ?= 1

compare: kit need-gcc need-cargo $(LIB)
	cd compare && cargo test --offline --locked --quiet && cargo run --release --offline --locked --quiet -- check $(COUNT) $(SEED)

RUNS ?= 1

# Times change with where code lies within 64 bytes, so each run has all code 16 bytes further than the one before.
bench: kit need-gcc need-cargo $(LIB) target/bin/bench_plans
	cd compare && rm -rf target/runs && mkdir -p target/runs && for run in $$(seq $(RUNS)); do \
	    SHIFT=$$((16 * run)) cargo build --release --offline --locked --quiet && cp target/release/compare target/runs/$$run || exit 1; \
	done && target/runs/1 bench ../target/bin/bench_plans target/runs/*

trace: need-python3
	python3 -B tools/trace
