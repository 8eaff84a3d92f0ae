# What a reader types, and the steps that the gate (.ci/run) is made of.

.DEFAULT_GOAL := help
.PHONY: run test bench soak fuzz lib lookup fmt clean help check check-fmt check-c check-fuzz check-rust examples need-rt
.NOTPARALLEL:

# A failed step of a pipeline fails its recipe.
SHELL := bash
.SHELLFLAGS := -euo pipefail -c

CC ?= cc
CFLAGS := -std=c11 -Wall -Wextra -Werror -pedantic -O2
CXXFLAGS := -std=c++11 -Wall -Wextra -Werror -pedantic

# Everything but crates/*/out/ is built under target/, whatever the environment says. The Rust
# crate links the library that is built here, and its tests run the program.
export CARGO_TARGET_DIR := $(CURDIR)/target/rust
export CARGO_NET_OFFLINE := true
export MOPEKIHUA_LIB_DIR := $(CURDIR)/target/staticlib
export MOPEKIHUA_LOOKUP := $(CURDIR)/target/bin/lookup
CARGO := cd rust && cargo

# A program in C each, with the output that it must print beside it.
EXAMPLES := $(patsubst examples/%.c,%,$(wildcard examples/*.c))

# The job sheet that the program is tried on, and its answer, stand in the program's crate.
SHEET := crates/lookup/stdin

## run: prove the program and the library, answer a job sheet, and run the C examples
run: lookup examples
	@echo '== a job sheet'; cat $(SHEET)
	@echo '== what lookup prints for it'; target/bin/lookup <$(SHEET)
	@for example in $(EXAMPLES); do echo "== $$example"; target/examples/$$example; done

## test: the whole gate
test:
	@.ci/run

## bench: prove the library, and time it beside the same algorithms in plain Rust, and SQLite
bench: lib
	$(CARGO) bench --locked --bench speed
	$(CARGO) bench --locked --bench sqlite

## soak: prove the library, and compare a million random calls with the definitions
soak: lib
	export MOPEKIHUA_SOAK="$${MOPEKIHUA_SOAK:-1000000}"; \
	export MOPEKIHUA_SOAK_SEED="$${MOPEKIHUA_SOAK_SEED:-$$(date +%s)}"; \
	$(CARGO) test --locked --release --test soak

## fuzz: prove the library, and fuzz its C functions for MOPEKIHUA_FUZZ_SECONDS, 1200 if not set
fuzz: lib
	fuzz/run -max_total_time="$${MOPEKIHUA_FUZZ_SECONDS:-1200}"

ARCHIVE := target/staticlib/libmopekihua.a

## lib: prove the library and write target/staticlib/libmopekihua.a
# Functions are to begin at boundaries of 64 bytes, so that their speed does not depend on where a linker puts them.
lib: need-rt
	cd crates/mopekihua && rt lib
	@mkdir -p $(dir $(ARCHIVE))
	cp crates/mopekihua/out/libmopekihua.a $(ARCHIVE)
	@objcopy --set-section-alignment '.text*=64' $(ARCHIVE) 2>/dev/null || \
	  echo 'skipped: objcopy does not align the functions of the library'

## lookup: prove the program and write target/bin/lookup
lookup: need-rt
	cd crates/lookup && rt run <stdin >/dev/null
	@mkdir -p target/bin
	cp crates/lookup/out/lookup target/bin/lookup

## fmt: put every source file into its layout
fmt: need-rt
	for crate in crates/*/; do (cd "$$crate" && rt fmt); done
	$(CARGO) fmt

## clean: remove everything that was built
clean:
	rm -rf target crates/*/out

## help: this list
help:
	@sed -n 's/^## /  make /p' Makefile

# The gate after `rt ci`.
check: check-fmt check-c check-fuzz check-rust

examples: $(EXAMPLES:%=target/examples/%)

target/examples/%: examples/%.c include/mopekihua.h lib
	@mkdir -p $(@D)
	$(CC) $(CFLAGS) -Iinclude $< $(ARCHIVE) -o $@

# `rt ci` itself refuses files of crates/ that are not laid out.
check-fmt:
	$(CARGO) fmt --check

# The header is included twice, alone: it brings what it needs and guards itself.
TWICE := printf '\#include "mopekihua.h"\n\#include "mopekihua.h"\n'

check-c: examples
	for example in $(EXAMPLES); do target/examples/$$example | diff examples/$$example.out -; done
	$(TWICE) | $(CC) -x c $(CFLAGS) -Iinclude -fsyntax-only -
	@if printf '#include <stdint.h>\n' | $(CC) -x c++ -fsyntax-only - 2>/dev/null; then \
	  set -x; $(TWICE) | $(CC) -x c++ $(CXXFLAGS) -Iinclude -fsyntax-only -; \
	else \
	  echo 'skipped: $(CC) does not compile C++, so the header is only checked as C'; \
	fi

# The inputs that fuzzing starts from, and a few others.
check-fuzz: lib
	fuzz/run -runs=2000 -seed=1

check-rust: lib lookup
	@if cargo clippy --version >/dev/null 2>&1; then \
	  set -x; $(CARGO) clippy --locked --release --all-targets -- -D warnings; \
	else \
	  echo 'skipped: there is no cargo clippy'; \
	fi
	$(CARGO) test --locked --release
	$(CARGO) doc --locked --no-deps

check-rust: export RUSTDOCFLAGS := -D warnings

need-rt:
	@command -v rt >/dev/null || { \
	  echo "rt is not on PATH: install the Rattle toolchain, which proves and builds the library" >&2; \
	  exit 1; }
