# make test: the gate, .ci/run: `rt ci`, then the library's callers, the command, the program cdlist, the comparisons and the claims on what it has proved.
# make run: the command `lexicon check` on a sample. make cli: the command, target/cli/release/lexicon. make lib: the library for C and Rust.
# make callers: the programs in C and the Rust crate over the library. make command: the command's tests, and 100,000 texts beside the library.
# make programs: cdlist where reading or writing fails, and with arguments. make list: cdlist on standard input, or on a sample where that is a terminal.
# make compare: the comparisons alone, with more pairs; SEED=7 TEXTS=100000000 PAIRS=0 FILES=0 for a seed and counts of one's own.
# make claims: docs/CLAIMS.md against the crates. make bench: the table of docs/BENCHMARKS.md.
# Everything is built into target/, but for what `rt` makes of a crate, in its folder out/.

SHELL = /bin/bash
.SHELLFLAGS = -o pipefail -c

CC = gcc
CFLAGS = -std=c11 -Wall -Wextra -ffp-contract=off
LIB = target/staticlib

.PHONY: test lib libs callers cli command command-tests command-texts programs cdlist compare beside models oracle claims run list bench

# The seed of the texts, pairs and shelf files by chance, and how many.
SEED := $(shell date +%Y%m%d)
TEXTS = 1000000
PAIRS = 1000000
FILES = 100000

test:
	@.ci/run

# The gate says --after-ci, where `rt ci` has just passed: then what it left is taken as it stands.
AFTER_CI =

lib: libs
	@echo "$(LIB)/liblexicon_c.a, with include/lexicon.h"

# While crates are proved, a line for each goes to standard error; target/NAME.log has all that was said.
prove = { $(1); } 2>&1 | tee target/$@.log | sed -un 's/^rt: chose .* for /proving /p' >&2 || { cat target/$@.log; exit 1; }

libs: | target
	@$(call prove,tools/library $(AFTER_CI) float_c lexicon_c)

callers: libs
	@$(CC) $(CFLAGS) -pedantic -O2 -Iinclude -o target/edges bindings/c/edges.c $(LIB)/liblexicon_c.a
	@target/edges
	@$(CC) $(CFLAGS) -pedantic -O2 -Iinclude -o target/example bindings/c/example.c $(LIB)/liblexicon_c.a
	@target/example | diff bindings/c/example.stdout -
	@cd bindings/rust && unset MAKEFLAGS LEXICON_LIB && cargo clippy --offline --quiet --all-targets -- -D warnings && cargo test --offline --quiet

# The editor's command, over the Rust crate and Debian's crates.
cli: libs
	@oracle/get_crates ahash clap indicatif libc serde_json
	@cd cli && unset MAKEFLAGS LEXICON_LIB && cargo build --offline --quiet --release

run: cli
	@target/cli/release/lexicon check --notes cli/sample.txt || [ $$? = 1 ]

command: command-tests command-texts

command-tests: cli
	@cd cli && unset MAKEFLAGS LEXICON_LIB && cargo clippy --offline --quiet --release --all-targets -- -D warnings && cargo test --offline --quiet --release

command-texts: cli
	@$(CC) $(CFLAGS) -D_POSIX_C_SOURCE=200809L -O2 -Iinclude -o target/filed oracle/filed.c $(LIB)/liblexicon_c.a
	@python3 oracle/command.py

# `rt run` proves and builds, and `rt ci` has built as much.
cdlist: | target
	@$(if $(AFTER_CI),,$(call prove,cd crates/cdlist && rt run </dev/null))

programs: cdlist
	@oracle/programs

list: cdlist
	@if [ -t 0 ]; then crates/cdlist/out/cdlist $(ARGUMENT) <crates/cdlist/stdin; else crates/cdlist/out/cdlist $(ARGUMENT); fi

compare: beside models

# The library beside the Rust, in one process.
beside: libs oracle
	@$(CC) $(CFLAGS) -O2 -o target/float oracle/float.c $(LIB)/libfloat_c.a -lm
	@target/float $(SEED)
	@oracle/compare $(SEED) $(TEXTS) $(PAIRS) $(FILES)

# The models in Python, the Rust and the stored answers.
models: oracle
	@python3 oracle/answers.py
	@python3 oracle/wishes.py
	@python3 oracle/cox.py
	@python3 oracle/filing.py
	@python3 oracle/counts.py
	@python3 oracle/shelf.py
	@python3 oracle/names.py

oracle:
	@oracle/build

claims:
	@docs/check_claims.py

# At -O3, as rt compiles. The plain C of the root, the cosine and the walls takes the machine's instruction for the root; that of the first two may call nothing.
BENCH = bench.c timing.c reading.c figure.c filing.c filing_plain.c shelf.c shelf_figures.c rescue.c cox.c names.c names_plain.c float.c command.c
bench: libs oracle cli
	@python3 oracle/corpus.py long >target/long.txt
	@bench/headwords 1000000 1 >target/headwords.txt
	@bench/headwords 1000000 1 few >target/headwords-few.txt
	@$(CC) $(CFLAGS) -O3 -fno-math-errno -c -o target/float_plain.o bench/float_plain.c
	@test -z "$$(nm -u target/float_plain.o)"
	@$(CC) $(CFLAGS) -O3 -fno-math-errno -Iinclude -c -o target/walls_plain.o bench/walls_plain.c
	@if bench/get_nauty; then set -- -DNAUTY bench/filing_nauty.c -l:libnautyL1.a; fi; \
	$(CC) $(CFLAGS) -O3 -Iinclude -o target/bench $(BENCH:%=bench/%) target/float_plain.o target/walls_plain.o "$$@" \
		$(LIB)/libfloat_c.a $(LIB)/liblexicon_c.a target/rust/release/libmiratope.a -lpthread -ldl -lm
	@target/bench target/long.txt target/headwords.txt target/headwords-few.txt >target/table.md
	@bench/write <target/table.md

target:
	@mkdir -p target
