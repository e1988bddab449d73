# Ormsvelg: what there is to run. Build outputs go to build/, what rt proves and builds to the out/ of each crate.
#   make test                         the whole gate, .ci/run
#   make run JOB=FILE                 the answer for a job sheet, as the bench prints it
#   make build/ormsvelg               the command: ormsvelg read, solve, check, widen, write and move for files, in words
#   make read JOB=FILE                what the command says of a job sheet
#   make check JOB=FILE ANSWER=FILE   what the command says of an answer sheet for a job sheet
#   make run, read, check FORM=2      the same for a job sheet of form two
#   make install PREFIX=/usr/local    the command, its manual page, the library, its header and its pkg-config file
#   make host-test                    the C tests over the static library, the command's, the bench programs' and the installation's
#   make compare SEED=1 COUNT=50000   random cases, so many of each call, and case books, against the independent second program
#   make speed                        the library's times against plain C++, native

SEED ?= 1
# Without a count each call has its own.
COUNT ?=
# The cases of the random case book.
BOOK_CASES = 2000

# The form of the job sheets.
FORM ?= 1

VERSION = 0.5.1
PREFIX ?= /usr/local
LIBRARY = crates/ormsvelg/out/libormsvelg.a
BENCH = crates/bench/out/bench
BENCH2 = crates/bench2/out/bench2
OUTCOMES = crates/outcomes/out/outcomes
C = -std=c11 -Wall -Wextra -Werror
# Loops are aligned, so that no time hangs on where the linker happens to put a short one.
CXXFLAGS = -std=c++20 -Wall -Wextra -Werror -O3 -falign-functions=64 -falign-loops=64
HOST = tools/x86 cc $(C) -Wpedantic -O2 -Iinclude
SANITIZED = -O0 -g -fsanitize=address,undefined -fno-sanitize-recover=all
PROVED = crates.txt $(shell find crates -name out -prune -o \( -name '*.rt' -o -name '*.antt' \) -print)

.PHONY: test run read check install host-test host-test-sanitized compare speed clean

test:
	.ci/run

$(LIBRARY): $(PROVED)
	cd crates/ormsvelg && rt lib
	@touch $@

# rt builds a program by running it, here on no input. What rt says goes to standard error, so that a run prints the answer alone.
$(BENCH): PROGRAM = bench
$(BENCH2): PROGRAM = bench2
$(OUTCOMES): PROGRAM = outcomes
$(BENCH) $(BENCH2) $(OUTCOMES): $(PROVED)
	@cd crates/$(PROGRAM) && rt run </dev/null >/dev/null
	@touch $@

COMMAND = host/ormsvelg.c $(addprefix host/,archive.h board.h describe.h request.h save.h sheet.h words.h) include/ormsvelg.h \
    Makefile tools/x86 $(LIBRARY)

build/ormsvelg: $(COMMAND)
	@mkdir -p build
	$(HOST) -DVERSION='"$(VERSION)"' -o $@ host/ormsvelg.c $(LIBRARY)

build/ormsvelg-sanitized: $(COMMAND)
	@mkdir -p build
	$(HOST) $(SANITIZED) -DVERSION='"$(VERSION)"' -o $@ host/ormsvelg.c $(LIBRARY)

# The bench program of the form: nothing for a form that is neither 1 nor 2.
RUN = $(BENCH$(filter-out 1,$(FORM)))

run: $(RUN)
	@test -n "$(JOB)" && test -n "$(RUN)" || { echo "usage: make run JOB=FILE [FORM=2]"; exit 2; }
	@tools/x86 run $(RUN) < "$(JOB)"

read: build/ormsvelg
	@test -n "$(JOB)" || { echo "usage: make read JOB=FILE [FORM=2]"; exit 2; }
	@tools/x86 run build/ormsvelg read --form "$(FORM)" "$(JOB)" || [ $$? -eq 1 ]

check: build/ormsvelg
	@test -n "$(JOB)" && test -n "$(ANSWER)" || { echo "usage: make check JOB=FILE ANSWER=FILE [FORM=2]"; exit 2; }
	@tools/x86 run build/ormsvelg check --form "$(FORM)" "$(JOB)" "$(ANSWER)" || [ $$? -eq 1 ]

TO = $(DESTDIR)$(PREFIX)

install: build/ormsvelg
	install -d "$(TO)/bin" "$(TO)/lib/pkgconfig" "$(TO)/include" "$(TO)/share/man/man1"
	install -m 755 build/ormsvelg "$(TO)/bin/ormsvelg"
	install -m 644 $(LIBRARY) "$(TO)/lib/libormsvelg.a"
	install -m 644 include/ormsvelg.h "$(TO)/include/ormsvelg.h"
	install -m 644 host/ormsvelg.1 "$(TO)/share/man/man1/ormsvelg.1"
	sed '/^#/d; s|@PREFIX@|$(PREFIX)|; s|@VERSION@|$(VERSION)|' host/ormsvelg.pc.in >build/ormsvelg.pc
	install -m 644 build/ormsvelg.pc "$(TO)/lib/pkgconfig/ormsvelg.pc"

TESTS = build/test build/test_two build/test_solve build/test_widen build/test_write build/test_move build/test_rule
TESTED = $(addprefix host/,board.h guarded.h lent.h listed.h sheet.h) include/ormsvelg.h tools/x86 $(LIBRARY)

$(TESTS): build/%: host/%.c $(TESTED)
	@mkdir -p build
	$(HOST) -o $@ host/$*.c $(LIBRARY)

$(TESTS:=-sanitized): build/%-sanitized: host/%.c $(TESTED)
	@mkdir -p build
	$(HOST) $(SANITIZED) -o $@ host/$*.c $(LIBRARY)

# What the library tells of the stored cases, the broken rule too, which the C face does not hand over.
CASES = crates/outcomes/stdin build/outcomes.lines

build/outcomes.lines: $(OUTCOMES) crates/outcomes/stdin crates/outcomes/stdout tools/x86
	@mkdir -p build
	tools/x86 run $(OUTCOMES) <crates/outcomes/stdin >$@.new
	cmp $@.new crates/outcomes/stdout
	mv $@.new $@

host-test: $(TESTS) build/outcomes.lines build/ormsvelg $(BENCH) $(BENCH2)
	tools/x86 run build/test
	tools/x86 run build/test_two
	tools/x86 run build/test_solve
	tools/x86 run build/test_widen
	tools/x86 run build/test_write
	tools/x86 run build/test_move
	tools/x86 run build/test_rule $(CASES)
	host/test_command.sh build/ormsvelg
	host/test_bench.sh $(BENCH) $(BENCH2) build/ormsvelg
	host/test_install.sh
ifeq ($(shell uname -m),x86_64)
	$(MAKE) --no-print-directory host-test-sanitized
else
	@echo "skipped: sanitizers run on x86-64 alone"
endif

host-test-sanitized: $(TESTS:=-sanitized) build/outcomes.lines build/ormsvelg-sanitized
	tools/x86 run build/test-sanitized
	tools/x86 run build/test_two-sanitized
	tools/x86 run build/test_solve-sanitized
	tools/x86 run build/test_widen-sanitized
	tools/x86 run build/test_write-sanitized
	tools/x86 run build/test_move-sanitized
	tools/x86 run build/test_rule-sanitized $(CASES)
	host/test_command.sh build/ormsvelg-sanitized

build/drive: host/drive.c tools/x86 $(LIBRARY)
	@mkdir -p build
	tools/x86 bare -o $@ host/drive.c $(LIBRARY)

build/second/compare: $(wildcard second/*.rs)
	@mkdir -p build/second
	rustc -O --edition 2021 -o $@ second/main.rs

# The stored case book's lines are the second program's, and so are those that the program `outcomes` prints for a random book.
compare: build/drive build/second/compare $(OUTCOMES)
	build/second/compare --outcomes <crates/outcomes/stdin | cmp - crates/outcomes/stdout
	build/second/compare --book $(SEED) $(BOOK_CASES) >build/book
	build/second/compare --outcomes <build/book >build/book.second
	tools/x86 run $(OUTCOMES) <build/book >build/book.lines
	cmp build/book.second build/book.lines || { build/second/compare --differing build/book.lines <build/book; exit 1; }
	build/second/compare --seed $(SEED) $(COUNT:%=--count %) -- tools/x86 run build/drive

build/native/libormsvelg.a: $(PROVED) tools/native-archive
	tools/native-archive ormsvelg $@

build/native/%.o: speed/%.cpp $(wildcard speed/*.h) include/ormsvelg.h
	@mkdir -p build/native
	g++ $(CXXFLAGS) -Iinclude -c -o $@ $<

build/native/speed: $(addprefix build/native/,main.o plain.o best.o families.o sheets.o judge.o libormsvelg.a)
	g++ -o $@ $^

speed: build/native/speed
	build/native/speed

clean:
	rm -rf build crates/*/out
