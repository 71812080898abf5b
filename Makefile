# make         proves all crates, builds the archive for C and Rust and the operator's command, and runs the demonstration
# make test    the gate: every proof (rt ci keeps what it proved on this machine), the must-fail edits, and every test
# make bench   the archive's speed against plain Rust's; fails where a wanted ratio is missed
# make soak    compares the archive with the reference for a minute, or make soak TIME=3600 for an hour
# make clean   removes what the others made
#
# make guard, make house       the gate's cheap checks by themselves
# make expected                writes the numbers that the gate holds edits and tests to (.ci/expected)
#
# Needs the Rattle kit (rt), gcc, cargo and make, and no network.

SHELL := bash
.SHELLFLAGS := -euo pipefail -c
MAKEFLAGS += --no-print-directory
.NOTPARALLEL:
.DELETE_ON_ERROR:
.PHONY: all proved archive operator demonstration test guard house expected bench soak clean

ARCHIVE := target/staticlib/libembankery.a
DESK := target/bin/desk
SOURCES := crates.txt $(shell find crates -name out -prune -o \( -name '*.rt' -o -name '*.antt' \) -print)
# What rt makes of a crate lies in its out/; the archive and the programs are copied from there to target/.
copy = mkdir -p $(@D) && cp $(1) $@

all: proved archive operator demonstration

# Proves what has changed, and runs each program against its stored output.
proved:
	rt all check

archive: $(ARCHIVE)

$(ARCHIVE): $(SOURCES)
	cd crates/embankery && rt lib
	$(call copy,crates/embankery/out/libembankery.a)

# rt builds a program to run it, and leaves it in its crate's out/. What this run prints is not looked at: it may end where
# there is no input.
target/bin/vectors target/bin/packets target/bin/rollover $(DESK): target/bin/%: $(SOURCES)
	rm -f crates/$*/out/$*
	cd crates/$* && { rt run > /dev/null < /dev/null || [ -x out/$* ]; }
	$(call copy,crates/$*/out/$*)

# The operator's command, over the archive; beside the programs.
operator: archive
	cd rust && cargo build --offline --locked --release --quiet --package operator
	mkdir -p target/bin && cp rust/target/release/embankery target/bin/embankery

# The published vectors, of the functions and of the calls, then two ends that exchange segments across the rollover.
demonstration: proved target/bin/vectors target/bin/packets target/bin/rollover $(DESK)
	cd crates/vectors/data && ../../../target/bin/vectors
	cd crates/packets/data && ../../../target/bin/packets
	target/bin/rollover

bench: archive
	cd rust && cargo run --offline --locked --release --quiet --package bench

# From a seed that is printed: the clock's, or SEED.
TIME ?= 60
soak: archive
	cd rust && cargo run --offline --locked --release --quiet --package compare -- $(TIME) $(if $(SEED),--seed $(SEED))

# A second: what would make the gate say more than it did.
guard:
	@.ci/guard

# Some seconds: the documents against the tree. The gate runs it with the other tests again.
house:
	@cd rust && cargo test --offline --locked --quiet --package house

# The tests on the archive that is there. What they print is kept, to be held to .ci/expected.
TESTS := rust/target/tests.log
run_tests = mkdir -p rust/target; (cd rust && cargo test --offline --locked) | tee $(TESTS)
compare_tests = .ci/count $(TESTS) | diff - .ci/expected

# The gate runs in an environment of its own: called from elsewhere, make test has .ci/run make one and call it again.
ifndef GATE
test:
	@.ci/run
else
# The cheap checks come first. rt ci's last line, its verdict, is held back until the tests on the archive have
# passed too; if anything fails on the way, it is not printed as a line at all. It counts crates and edits. An edit
# that rt could not try as it stands ("N bad" of its line "rt: ok") fails the gate too. The archive and the desk are
# those that rt makes of what rt ci has just proved.
test: guard house
	@said=$$(mktemp); trap 'rm -f "$$said"' EXIT; \
	failed() { echo "make test: FAILED$$*"; exit 1; }; \
	rt ci | tee "$$said" | awk 'NR > 1 { print last; fflush() } { last = $$0 }' \
	    || failed " in rt ci: $$(tail -n 1 "$$said")"; \
	all=$$(($$(grep -Ec '^[a-z0-9_]+( staticlib)?:' crates.txt) + $$(.ci/count edits | sed 's/ .*//'))); \
	tail -n 1 "$$said" | grep -qx "$$all passed, 0 failed" \
	    || failed ": rt ci ended with: $$(tail -n 1 "$$said"), and not with $$all, the crates and edits"; \
	grep -q '^rt: ok' "$$said" || failed ": rt ci does not say ok"; \
	if grep '^rt: ok' "$$said" | grep -Eq ', [0-9]+ bad'; then failed ": an edit is bad"; fi; \
	rm -f $(ARCHIVE) $(DESK); $(MAKE) archive $(DESK) || failed ": no archive or no desk"; \
	$(run_tests) || failed " in the Rust tests"; \
	$(compare_tests) || failed ": what the tests say (<) is not what .ci/expected has (>)"; \
	tail -n 1 "$$said"
endif

# After a change of the number of edits or tests: runs the tests and writes their numbers. Look at the difference.
expected: archive
	@$(run_tests)
	@.ci/count $(TESTS) > .ci/expected; git diff --unified=0 .ci/expected; .ci/guard

clean:
	rm -rf target rust/target crates/*/out
