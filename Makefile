# Three commands for a stranger: `make run` shows what there is to see, `make console` starts the console, `make test` is the gate.
# GNU make and bash.
SHELL = /bin/bash
.SHELLFLAGS = -o pipefail -c
.PHONY: run console test expected clean

# What the crates are made from. The folders are named too, so that a file that is gone is seen.
SOURCES := crates.txt $(shell find crates/*/src crates/*/specs crates/*/proofs)

# Runs rt in a crate's folder, and says which crates it proves: those that it has not proved as they are. All that it printed is
# shown where it fails. $(1) is the crate, $(2) the command.
PROVED = /^crate /h; /^logic=proved/{x;s/^crate \([^:]*\):.*/\1: proved/p}
build = { mkdir -p target; (cd crates/$(1) && $(2)) 2>&1 | tee target/$(1).log | sed -un '$(PROVED)' || { cat target/$(1).log; exit 1; }; }

# Makes target/bin/$(1). No command of rt only builds a program, so it runs here, on no input, and what it writes is dropped.
program = $(call build,$(1),rt run </dev/null 2>&1 >/dev/null) && install -D crates/$(1)/out/$(1) target/bin/$(1)

run:
	@echo "proving the crates of the programs 'guests' and 'console': on a fresh clone that takes a while, a line for each as it is proved"
	@$(call program,guests)
	@$(call program,console)
	@target/bin/guests
	@echo
	@echo "the same at the console, each line with its answer:"
	@example/play.sh example/guests.console

console:
	@echo "proving the crates of the program 'console': on a fresh clone that takes a while, a line for each as it is proved"
	@$(call program,console)
	@echo "the console: a command a line, as 'apmask -5' or 'sweep'; the end of the input (Ctrl-D) ends it"
	@target/bin/console

test:
	.ci/run

# rt keeps what it proved in crates/*/out.
clean:
	rm -rf target crates/*/out

# The expected output of three programs, and the input of two, was made by these Python programs, which share no code with
# the library. This shows only that the stored files are still what they make. The answers of the console were worked out by hand,
# and stand in tests/console.py, which also holds them to the model of the others.
CONSOLES = console console_1023 console_1024 console_1025 console_5000

expected:
	@python3 tests/textcases.py | cmp - crates/textcases/stdout && echo "textcases: agrees"
	@python3 tests/cases.py stdin | cmp - crates/cases/stdin && echo "cases, input: agrees"
	@python3 tests/cases.py stdout | cmp - crates/cases/stdout && echo "cases: agrees"
	@python3 tests/lists.py stdin | cmp - crates/lists/stdin && echo "lists, input: agrees"
	@python3 tests/lists.py stdout | cmp - crates/lists/stdout && echo "lists: agrees"
	@for c in $(CONSOLES); do \
	    python3 tests/console.py $$c stdin | cmp - crates/$$c/stdin && echo "$$c, input: agrees" || exit 1; \
	    python3 tests/console.py $$c stdout | cmp - crates/$$c/stdout && echo "$$c: agrees" || exit 1; \
	    python3 tests/console.py $$c check && echo "$$c, by the model: agrees" || exit 1; \
	done

# What follows is outside of the proof. The library is proved first where that is not done yet.
.PHONY: library install outside bench example
LIB = target/lib/libzokormendu.a
# The crates that export functions. `rt lib` makes an archive of each one's exports, with one object, whose other symbols are local.
EXPORTS = $(shell sed -n 's/^\([a-z0-9_]*\) staticlib:.*/\1/p' crates.txt)

library: $(LIB)

$(LIB): $(SOURCES)
	@echo "making $(LIB): on a fresh clone that takes a while, a line for each crate as it is proved"
	@rm -rf target/lib && mkdir -p target/lib/objects
	@for c in $(EXPORTS); do \
	    $(call build,$$c,rt lib) && (cd target/lib/objects && ar x ../../../crates/$$c/out/lib$$c.a) || exit 1; \
	    echo "$$c: compiled"; \
	done
	@ar rcs $(LIB) target/lib/objects/*.o
	@needs=$$(nm -u $(LIB) | awk 'NF == 2 {print $$2}' | sort -u | grep -vx 'memcpy\|memset' | xargs); \
	    [ -z "$$needs" ] || { rm $(LIB); echo "$(LIB) needs $$needs: README says memcpy and memset alone"; exit 1; }
	@echo "$(LIB): $$(nm -g $(LIB) | grep -c ' T zk_raw_') functions"

# What is installed: the archive above, or one that `make s390x` made.
ARCHIVE = $(LIB)
PREFIX = /usr/local
LIBDIR = $(PREFIX)/lib
DESTDIR =
VERSION = $(shell sed -n 's/^.define ZK_VERSION_STRING "\(.*\)"/\1/p' include/zokormendu.h)

install: $(ARCHIVE:$(CURDIR)/%=%)
	@for path in "$(PREFIX)" "$(LIBDIR)"; do case "$$path" in /*) ;; *) echo "no absolute path: $$path"; exit 1 ;; esac; done
	@mkdir -p target
	install -d "$(DESTDIR)$(PREFIX)/include" "$(DESTDIR)$(LIBDIR)/pkgconfig"
	install -m 644 include/zokormendu.h "$(DESTDIR)$(PREFIX)/include/zokormendu.h"
	install -m 644 "$(ARCHIVE)" "$(DESTDIR)$(LIBDIR)/libzokormendu.a"
	{ echo 'prefix=$(PREFIX)'; echo 'libdir=$(LIBDIR)'; sed 's/@VERSION@/$(VERSION)/' zokormendu.pc.in; } >target/zokormendu.pc
	install -m 644 target/zokormendu.pc "$(DESTDIR)$(LIBDIR)/pkgconfig/zokormendu.pc"

# A C program over an installed copy of the library, linked as README says and held to its expected output; the header is
# C++ too.
CFLAGS = -std=c11 -Wall -Wextra -pedantic -Werror -O2
COPY = $(CURDIR)/target/example-c/installed
USE = PKG_CONFIG_PATH="$(COPY)/lib/pkgconfig" pkg-config

example: library
	@$(MAKE) --no-print-directory install PREFIX="$(COPY)" LIBDIR="$(COPY)/lib" DESTDIR=
	c++ -std=c++11 -Wall -Wextra -pedantic -Werror -fsyntax-only -x c++ "$(COPY)/include/zokormendu.h"
	eval "cc $(CFLAGS) -c $$($(USE) --cflags zokormendu) -o target/example-c/guests.o example-c/guests.c"
	eval "cc -o target/example-c/guests target/example-c/guests.o $$($(USE) --libs zokormendu)"
	@target/example-c/guests >target/example-c/guests.out
	@cat target/example-c/guests.out
	@diff example-c/guests.expected target/example-c/guests.out && echo "example: agrees"

# The library beside a second implementation of the requirements, on random commands. It goes through the header's inline
# functions, which header.c gives symbols. Then the program of the console beside it, on random lines.
SEED = 1
SECONDS = 120
LINES = 100000
LINK = -L native=target/lib -l static=zokormendu

outside: target/outside/outside target/bin/console
	target/outside/outside $(SEED) $(SECONDS)
	target/outside/outside console $(SEED) $(LINES) target/bin/console

target/bin/console: $(SOURCES)
	@echo "making $@: a line for each crate as it is proved"
	@$(call program,console)

target/outside/outside: $(LIB) outside/outside.rs outside/header.c include/zokormendu.h
	@mkdir -p target/outside
	cc $(CFLAGS) -Iinclude -c -o target/outside/header.o outside/header.c
	@rm -f target/outside/libheader.a
	ar rcs target/outside/libheader.a target/outside/header.o
	rustc --edition 2021 -O -L native=target/outside -l static=header $(LINK) -o target/outside/outside outside/outside.rs

# The library beside an ordinary Rust program, for speed; and what rustc makes of the same source, unchecked or checked, with names of
# its own. LAYOUT=1, or another positive number, puts the functions into another order.
BUILD = unchecked
LAYOUT =
# $(1) is the directory of a version, $(2) where its translation goes.
translate = "$(1)/port/translate.py" $(2)/source && port/archive.sh $(2)/source $(2)/$(BUILD) $(BUILD)

bench: library
	@mkdir -p target/bench
	$(call translate,.,target/bench)
	bench/measure.sh target/bench Rattle $(LIB) translated target/bench/$(BUILD)/libzokormendu.a $(LAYOUT)

# This version beside another one, of which BEFORE is a clone, where the library is made too: each line of `make bench` in one process,
# of the kit's archives and then of the translations; and, where valgrind is there, the instructions of single calls, of all four. The other
# one must have the same functions and a record of the same size, and be proved by the same kit. RUSTC=... compiles both translations with
# another rustc.
# `make layouts` measures each line once in each of LAYOUTS layouts of the program, and gives the median.
.PHONY: compare layouts versions
BEFORE =
COMPARED = target/compare
LAYOUTS = 12
LIB_BEFORE = "$(BEFORE)/$(LIB)"
PORT = $(COMPARED)/after/$(BUILD)/libzokormendu.a
PORT_BEFORE = $(COMPARED)/before/$(BUILD)/libzokormendu.a

versions:
	@[ -e "$(BEFORE)/Makefile" ] || { echo "BEFORE is to be a clone of another version, as BEFORE=../before"; exit 1; }
	@$(MAKE) --no-print-directory library
	@$(MAKE) --no-print-directory -C "$(BEFORE)" library
	@$(call translate,.,$(COMPARED)/after)
	@$(call translate,$(BEFORE),$(COMPARED)/before)

compare: versions
	@echo; echo "the kit's archives:"
	@bench/measure.sh $(COMPARED)/kit before $(LIB_BEFORE) after $(LIB) $(LAYOUT)
	@echo; echo "the translations:"
	@bench/measure.sh $(COMPARED)/port before $(PORT_BEFORE) after $(PORT) $(LAYOUT)
	@if command -v valgrind >/dev/null; then \
	    echo; echo "instructions a call: the kit's before and after, the translation's before and after"; \
	    bench/count.sh $(COMPARED)/count $(LIB_BEFORE) $(LIB) $(PORT_BEFORE) $(PORT); \
	fi

layouts: versions
	@echo; echo "the kit's archives:"
	@bench/layouts.py $(COMPARED)/kit $(LIB_BEFORE) $(LIB) $(LAYOUTS)
	@echo; echo "the translations:"
	@bench/layouts.py $(COMPARED)/port $(PORT_BEFORE) $(PORT) $(LAYOUTS)

# The library for the machine that the cards are in: translated to Rust, built for s390x, and tested under qemu. Installs Debian's
# packages. SEED and STEPS are those of the outside test.
.PHONY: s390x s390x-diff
STEPS = 1000000

s390x:
	@port/s390x.sh tools
	@$(MAKE) --no-print-directory target/outside/outside
	@SEED=$(SEED) STEPS=$(STEPS) port/s390x.sh test

# Older than what it is made of, or not there.
target/s390x/%/libzokormendu.a: $(shell find crates.txt crates port include outside example-c -name out -prune -o -type f ! -name '*.pyc' -print)
	@echo "$@ is not there, or older than its sources: make s390x makes it"; exit 1

# The translation beside its source, crate by crate, and last the shims, which have none. CRATES="mask rules" shows these alone.
CRATES = $(shell sed -n 's/^\([a-z0-9_]*\)\( staticlib\)*:.*/\1/p' crates.txt) lib

s390x-diff:
	@rm -rf target/s390x/diff
	@port/translate.py target/s390x/diff/library
	@for f in crates/*/src/main.rt; do f=$${f#crates/}; f=$${f%%/*}; port/translate.py target/s390x/diff/$$f $$f || exit 1; done
	@for c in $(CRATES); do \
	    new=target/s390x/diff/library/$$c.rs; \
	    [ -e $$new ] || new=$$(ls target/s390x/diff/*/$$c.rs 2>/dev/null | head -n 1); \
	    [ -n "$$new" ] || { echo "no crate $$c"; exit 1; }; \
	    old=$$(ls crates/$$c/src/*.rt 2>/dev/null || echo /dev/null); \
	    echo; echo "$$old, $$new"; \
	    diff -U 1 $$old $$new | tail -n +3; \
	    [ $${PIPESTATUS[0]} -lt 2 ] || exit 1; \
	done
