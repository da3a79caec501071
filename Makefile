# Fontarisca: the two commands are `make run` and `make test`. Everything that is made goes below target/ and crates/*/out/, but for
# docs/BENCH.md (make bench).
.DEFAULT_GOAL := help
CFLAGS := -std=c11 -O2 -Wall -Wextra -Werror -Iinclude -Ihost
SANITIZE := -fsanitize=address,undefined -fno-sanitize-recover=all -g
LIBRARY := target/staticlib/libfontarisca.a
SHARED := host/card.c host/lent.c host/options.c
SCENARIOS := target/host/ring target/host/collectors
TRIALS := target/host/numbers target/host/outside

# the archive is for x86-64: on another machine host/machine has a compiler for it and an emulator
ifneq ($(shell uname -m),x86_64)
CC := x86_64-linux-gnu-gcc
export OBJDUMP := x86_64-linux-gnu-objdump
export OBJCOPY := x86_64-linux-gnu-objcopy
endif

.PHONY: help run test hosts sanitized header machine bench clean

help: ## list the targets
	@grep -E '^[a-z]+:.*## ' $(MAKEFILE_LIST) | sed -E 's/^([a-z]+):.*## /  \1: /'

run: $(SCENARIOS) ## build the static library and the hosts, and run the ring and the collectors
	target/host/ring
	target/host/collectors

test: ## test everything: what the gate runs
	.ci/run

hosts: $(SCENARIOS) $(TRIALS) ## build the hosts in C and the programs that try the header and the guard pages

sanitized: target/sanitized/ring target/sanitized/collectors target/sanitized/numbers ## build hosts with the compiler's sanitizers

header: ## compile the header as C and as C++, and compare its numbers with docs/NUMBERS.md and its layout with the rules
	host/test-header

$(LIBRARY): $(shell find crates -path '*/out' -prune -o \( -name '*.rt' -o -name '*.antt' \) -print) crates.txt
	cd crates/fontarisca_c && rt lib
	@mkdir -p $(@D)
	cp crates/fontarisca_c/out/libfontarisca_c.a $@

machine:
	@host/machine

target/host/%: host/%.c $(SHARED) $(wildcard host/*.h) include/fontarisca.h $(LIBRARY) | machine
	@mkdir -p target/host
	$(CC) $(CFLAGS) $< $(SHARED) $(LIBRARY) -o $@

target/sanitized/%: host/%.c $(SHARED) $(wildcard host/*.h) include/fontarisca.h $(LIBRARY)
	@mkdir -p target/sanitized
	$(CC) $(CFLAGS) $(SANITIZE) $< $(SHARED) $(LIBRARY) -o $@

target/bench/libunchecked.a: $(LIBRARY) host/without-check | machine
	host/without-check

bench: target/bench/libunchecked.a ## time the library, plain Rust and the model on the ring, and write docs/BENCH.md
	@[ "$$(uname -m)" = x86_64 ] || { echo "the archive is for x86-64: its times under an emulator say nothing"; exit 1; }
	CARGO_TARGET_DIR=target/rust FONTARISCA_LIB=target/staticlib cargo build --profile timed --offline --quiet \
	    --manifest-path host/rust/Cargo.toml --features unchecked --bin bench
	target/rust/timed/bench --page host/bench.template docs/BENCH.md

clean: ## remove what was made
	rm -rf target crates/*/out
