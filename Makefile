# The archive and the programs of the proved crates, the C host that links the archive, and the
# second program. `make help` prints the lines that start with '##'.

# Others may be tried: make host-tests ARCHIVE=path/to/libhost.a
ARCHIVE ?= target/staticlib/libhost.a
LISTER ?= target/bin/lister
REPLAY ?= target/bin/replay
CODEC ?= target/bin/codec
BENCH ?= target/bin/bench
PLANNER ?= target/bin/planner
PLANCHECK ?= target/bin/plancheck
PLANBENCH ?= target/bin/planbench

# The proved programs, one to a line.
PROGRAMS := \
    target/bin/lister \
    target/bin/replay \
    target/bin/codec \
    target/bin/bench \
    target/bin/planner \
    target/bin/plancheck \
    target/bin/planbench

CC := gcc
CFLAGS := -std=c11 -O2 -Wall -Wextra -Werror
RUSTC := rustc
RUSTFLAGS := --edition 2021 -C opt-level=3 -C codegen-units=1 -C linker=$(CC) -D warnings

EXAMPLE := target/host/example
HOST_TESTS := target/host/tests
EXPORTS := target/host/exports.h
SOURCE_TEST := target/source/source-test
WRITER_MIR := target/mir/writer.json
SECOND := target/second/second
LINKED := target/linked-archive

# What the archive and the programs are made from; must-fail edits are tried on copies, and out/ is what rt keeps.
CRATE_FILES := $(shell find crates -type f -not -path '*/must-fail/*' -not -path '*/out/*')

MAKEFLAGS += --no-print-directory

# $(call need,COMMAND,WHAT IT IS): stops with one sentence where the command is not on the path.
need = $(if $(shell command -v $(1) 2>/dev/null),,$(error $(1), $(2), is not on the path))
need-rt = $(call need,rt,the Rattle toolchain)
need-cc = $(call need,$(CC),the C compiler)
need-rustc = $(call need,$(RUSTC),the Rust compiler)
need-nm = $(call need,nm,which tells the symbols of an archive)

# $(call say,TEXT): what is done next; standard output is for what a target shows.
say = @echo '$(1)' >&2

# Two runs of rt at once would wait for one another.
.NOTPARALLEL:
.DELETE_ON_ERROR:
.PHONY: help FORCE kit c-compiler rust-compiler

## make help             this list
help:
	@sed -n 's/^## //p' $(MAKEFILE_LIST)
	@echo 'Times are from nothing, on 2 idle cores with an older kit, and nearly all proofs. These are made once, and'
	@echo 'again where a crate changes: a second time all but test and bench take seconds.'

.PHONY: run
## make run              an example C host, and a sample exercise over the trunk                 4 minutes
run: rust-compiler $(EXAMPLE) $(SECOND) $(REPLAY)
	@echo 'What a C host learns of datagrams and trunk records:'
	@$(EXAMPLE)
	@echo
	@echo 'A sample exercise over a line that loses and repeats records:'
	@$(SECOND) exercise | $(REPLAY) | $(SECOND) tell

.PHONY: test
## make test             every proof, test and comparison, from nothing; ends with the counts   25 minutes
test: rust-compiler kit
	$(need-rt)
	@KIT_TOLD=yes scripts/test.sh

.PHONY: bench
## make bench            time the archive and the bench program against the second program       4 minutes, then 1
bench: rust-compiler $(SECOND) $(BENCH) $(PLANBENCH)
	@$(SECOND) bench --bench $(BENCH) --planbench $(PLANBENCH)

.PHONY: archive
## make archive          the archive that C links, target/staticlib/libhost.a                    3 minutes
archive: $(ARCHIVE)

.PHONY: programs
## make programs         the proved programs, in target/bin                                      5 minutes
programs: $(LISTER) $(REPLAY) $(CODEC) $(BENCH) $(PLANNER) $(PLANCHECK) $(PLANBENCH)

.PHONY: runs
## make runs             the stored runs of the programs alone                                   5 minutes
runs: $(PROGRAMS)
	@scripts/runs.sh

.PHONY: host-tests
## make host-tests       the C tests of the archive alone                                        3 minutes
host-tests: c-compiler $(HOST_TESTS)
	@$(HOST_TESTS)

.PHONY: source-test
## make source-test      the test of the source: no long array in the writer or what it calls    1 minute
source-test: rust-compiler $(SOURCE_TEST) $(WRITER_MIR)
	@$(SOURCE_TEST) crates $(dir $(WRITER_MIR))

.PHONY: compare
## make compare          the archive and the second program on datagrams                         3 minutes
compare: rust-compiler $(SECOND)
	@$(SECOND) compare

.PHONY: compare-records
## make compare-records  the archive and the second program on trunk records                     3 minutes
compare-records: rust-compiler $(SECOND)
	@$(SECOND) compare-records

.PHONY: compare-lister
## make compare-lister   the lister and the second program on streams of records                 3 minutes
compare-lister: rust-compiler $(SECOND) $(LISTER)
	@$(SECOND) compare-lister --lister $(LISTER)

.PHONY: compare-replay
## make compare-replay   both ends and the second program on scripts of calls                    4 minutes
compare-replay: rust-compiler $(SECOND) $(REPLAY)
	@$(SECOND) compare-replay --replay $(REPLAY)

.PHONY: compare-codec
## make compare-codec    the codec and the second program on datagrams and records to be written  4 minutes
compare-codec: rust-compiler $(SECOND) $(CODEC)
	@$(SECOND) compare-codec --codec $(CODEC)

.PHONY: compare-jobs
## make compare-jobs     the bench program and the second program on small jobs                  4 minutes
compare-jobs: rust-compiler $(SECOND) $(BENCH)
	@$(SECOND) compare-jobs --bench $(BENCH)

.PHONY: compare-plans
## make compare-plans    the planner and the check of plans, tried slot by slot                  4 minutes
compare-plans: rust-compiler $(SECOND) $(PLANNER) $(PLANCHECK)
	@$(SECOND) compare-plans --planner $(PLANNER) --plancheck $(PLANCHECK)

.PHONY: clean
## make clean            remove all that was built
clean:
	rm -rf target crates/*/out

# Asked for before anything is proved, so that nobody waits for minutes to learn what is missing.
# rustc links by the C compiler.
c-compiler:
	$(need-cc)
	@:

rust-compiler: c-compiler
	$(need-rustc)
	@:

# Tells where rt is another kit than the one that the crates were last proved with.
kit:
	@[ '$(KIT_TOLD)' ] || scripts/kit.sh

target/staticlib/libhost.a: crates.txt $(CRATE_FILES) | kit
	$(need-rt)
	@scripts/prove.sh archive host

$(PROGRAMS): target/bin/%: crates.txt $(CRATE_FILES) | kit
	$(need-rt)
	@scripts/prove.sh program $*

$(EXAMPLE): host/example.c
$(HOST_TESTS): $(wildcard host/tests/*) $(EXPORTS)
$(EXAMPLE) $(HOST_TESTS): host/datagrams.c host/records.c $(wildcard host/*.h) $(ARCHIVE) $(LINKED)
	$(need-cc)
	$(call say,Compiling $@.)
	@mkdir -p $(@D)
	@$(CC) $(CFLAGS) -I$(dir $(EXPORTS)) -o $@ $(filter %.c,$^) $(ARCHIVE)

# The calls that the archive exports, one EXPORT(name) to a line: the C tests must know each.
$(EXPORTS): $(ARCHIVE) $(LINKED)
	$(need-nm)
	@mkdir -p $(@D)
	@nm --extern-only --defined-only $(ARCHIVE) | sed -n 's/^.* T \(.*\)$$/EXPORT(\1)/p' > $@

$(SOURCE_TEST): $(wildcard source/*.rs) second/check.rs
	$(need-rustc)
	$(call say,Compiling $@.)
	@mkdir -p $(@D)
	@$(RUSTC) $(RUSTFLAGS) --crate-name source_test -o $@ source/main.rs

# What the compiler made of the writer and of the crates below it, a file for each beside this one.
$(WRITER_MIR): crates.txt $(CRATE_FILES) | kit
	$(need-rt)
	@scripts/prove.sh library writer

$(SECOND): $(shell find second -name '*.rs') $(ARCHIVE) $(LINKED)
	$(need-rustc)
	$(call say,Compiling $@.)
	@mkdir -p $(@D)
	@$(RUSTC) $(RUSTFLAGS) --crate-name second -o $@ second/main.rs -C link-arg=$(ARCHIVE)

# Changes when another archive is named, so that all is linked again.
$(LINKED): FORCE
	@mkdir -p $(@D)
	@echo '$(ARCHIVE)' | cmp -s - $@ || echo '$(ARCHIVE)' > $@
