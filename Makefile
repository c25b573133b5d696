# make run proves what the worked examples need and prints them; make test is the whole gate.
# make compare and make bench ask the published Rust too; RUST_SOURCE names the folder of its source.
.PHONY: run test edits compare bench memcheck vectors toolchain listed archive listing

run: toolchain
	@tests/build.sh examples examples target/bin/examples

test: toolchain listed
	tests/run.sh

# the edits that must fail and that the gate leaves out
edits: toolchain
	tests/edits.sh

# target/staticlib/libcovenant.a, for the programs that link it
archive: toolchain
	@tests/build.sh covenant_c libcovenant_c.a target/staticlib/libcovenant.a

# target/bin/listing, which prints the sheet of the condition code on its standard input
listing: toolchain
	@tests/build.sh listing listing target/bin/listing >/dev/null

# a million generated cases, both sides in one process
compare: archive
	tests/compare/build.sh "$(CURDIR)/target/compare"
	target/compare/compare 1 1000000

# writes docs/MEMORY.md and docs/SPEED.md
bench: archive
	bench/run.py

# the boundary tests and the cases of crates/vectors through the archive, under valgrind
memcheck: archive
	tests/memcheck/run.sh

# the cases that crates/vectors replays
vectors:
	tests/vectors/generate.py crates/vectors/data/cases

toolchain:
	@command -v rt >/dev/null 2>&1 || { echo "rt is not on the PATH: install the Rattle kit, which has rt, the prover and LLVM" >&2; exit 2; }

# A folder of crates/ that crates.txt does not list would not be proved.
listed:
	@for d in crates/*/; do n=$$(basename "$$d"); grep -q "^$$n[ :]" crates.txt || { echo "crates/$$n is not listed in crates.txt" >&2; exit 1; }; done
