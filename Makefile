# What is built goes below target/, and what rt makes of a crate below crates/NAME/out/.
CASES ?= 200000
FILES ?= 100000
SEED ?= 1
EVENTS ?= 128
NODES ?= 16
KIND ?= typical
REPEATS ?= 1
SECONDS ?= 60
SHARE ?= 1

LIBRARY := crates/rathunxa/out/librathunxa.a
HOST := target/host/rathunxa-host
D1 := examples/d1/plan examples/d1/passage
SOURCES := crates.txt $(shell find crates -name out -prune -o \( -name '*.rt' -o -name '*.antt' \) -print)
CARGO_FLAGS := --quiet --release --offline --locked --manifest-path compare/Cargo.toml
CARGO_RUN := CARGO_TARGET_DIR=target/cargo cargo run $(CARGO_FLAGS)
PROFILE := target/profile/callgrind.out

.PHONY: help test listing host compare exhaustive fuzz bench profile examples mutants

help:
	@echo 'make test            the gate: all proofs and all tests (.ci/run)'
	@echo 'make listing         proves and builds the listing program, and lists example D1 with it'
	@echo 'make host            builds the C host, $(HOST) PLAN PASSAGE'
	@echo 'make compare CASES=N FILES=N SEED=S'
	@echo '                     the library against the two other implementations: N cases of each open call, N pairs of files'
	@echo 'make exhaustive SHARE=K'
	@echo '                     both on every passage of up to four events, or on one in K'
	@echo 'make fuzz SECONDS=N  both on altered files, steered by coverage (fuzz/README.md)'
	@echo 'make bench           the time of all three on the same inputs; STRICT=--strict fails where the library is too slow'
	@echo 'make profile EVENTS=N NODES=N KIND=sparse|typical|every|aperiodic|accumulated|absence|mixed REPEATS=N'
	@echo '                     the instructions of the library by function, counted by callgrind'
	@echo 'make examples        writes the files of examples/ anew'
	@echo 'make mutants CRATE=NAME SHARE=K'
	@echo '                     small wrong edits of the code, which the checker must refuse: every K-th, of one crate or of all;'
	@echo '                     SHARE=eachK: K of each function'

test:
	.ci/run

listing:
	cd crates/listing && rt run -- $(abspath $(D1))

host: $(HOST)

compare: $(LIBRARY)
	$(CARGO_RUN) --bin compare -- --cases $(CASES) --files $(FILES) --seed $(SEED)

exhaustive: $(LIBRARY)
	$(CARGO_RUN) --bin exhaustive -- --share $(SHARE)

fuzz: $(LIBRARY)
	fuzz/run -max_total_time=$(SECONDS)

bench: $(LIBRARY)
	$(CARGO_RUN) --bin bench -- $(STRICT)

# Counts inside rathunxa_work alone, in the functions as they were compiled: the rest is making the files.
profile: $(LIBRARY)
	CARGO_TARGET_DIR=target/cargo cargo build $(CARGO_FLAGS) --bin profile
	mkdir -p $(dir $(PROFILE))
	valgrind --quiet --tool=callgrind --toggle-collect=rathunxa_work --callgrind-out-file=$(PROFILE) \
	  target/cargo/release/profile $(EVENTS) $(NODES) $(KIND) $(REPEATS)
	@callgrind_annotate --auto=no --threshold=99.99 $(PROFILE) | sed -n '/PROGRAM TOTALS/p; /file:function/,$$p' | sed 's, \[/.*\],,' | head -n 25

examples: $(LIBRARY)
	$(CARGO_RUN) --bin compare -- --write-examples examples

mutants:
	mutants/run $(SHARE) $(CRATE)

$(HOST): host/rathunxa_host.c include/rathunxa.h $(LIBRARY)
	mkdir -p $(@D)
	gcc -std=c11 -O2 -Wall -Wextra -Wpedantic -Werror -Iinclude $< $(LIBRARY) -o $@

$(LIBRARY): $(SOURCES)
	cd crates/rathunxa && rt lib
