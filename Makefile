# `make` alone lists the targets.

# how many members `make cluster` ends, and how many mutated datagrams it sends to each of two groups
CLUSTER_ENDS ?= 24
CLUSTER_DATAGRAMS ?= 100000

.PHONY: help demo try test edits refusals paxq measure expressions updates readers record_file examples bench kills cluster sweep clean

help:
	@echo 'make demo      builds paxq without waiting for its proof, and runs examples/first.pxq: each command, and under it what it printed'
	@echo 'make try SCRIPT=FILE  the same with a script of your own'
	@echo 'make test      the gate: proves everything from nothing, runs every test, tries wrong bodies; last line "N passed, M failed"'
	@echo 'make edits     tries every wrong body of CRATES (all, if none is named), also those that the gate leaves out for time'
	@echo 'make refusals  runs the tests of CRATES (all that have any, if none is named) with each allocation refused in turn'
	@echo 'make paxq      proves paxq and what it stands on, and leaves the program in bin/'
	@echo 'make examples  runs bin/paxq on the examples, on those of docs/LANGUAGE.md and on input that it refuses'
	@echo 'make measure   proves measure, which runs parts for the benchmarks, and leaves it at bin/measure'
	@echo 'make expressions  proves query_rows, which evaluates expressions for the benchmarks, and leaves it at bin/query_rows'
	@echo 'make updates   proves update_rows, which applies lists of update primitives for the benchmarks, and leaves it at bin/update_rows'
	@echo 'make readers   proves reader_rows, whose readers answer while a site takes requests, for the benchmarks, and leaves it at bin/reader_rows'
	@echo 'make record_file  proves record_file, an acceptor'"'"'s record in a SQLite file, and leaves it at bin/record_file'
	@echo 'make bench     measures bin/paxq, bin/measure, bin/query_rows, bin/update_rows, bin/reader_rows and bin/record_file (figures for docs/BENCHMARKS.md);'
	@echo '               groups of processes beside etcd, where that is installed'
	@echo 'make kills     ends bin/record_file in the middle of its writes, again and again: each acknowledged write has to be there;'
	@echo '               and opens files with it that the program sqlite3 made (needs sqlite3)'
	@echo 'make cluster   runs groups of bin/paxq processes on this machine: members that are ended by SIGKILL and started again, lost and mutated datagrams;'
	@echo '               CLUSTER_ENDS=1000 ends so many members, CLUSTER_DATAGRAMS=1000000 sends so many datagrams. Last line "N passed, M failed"'
	@echo 'make sweep     runs bin/paxq with each allocation refused in turn (needs a C compiler)'
	@echo 'make clean     removes what builds made'

demo:
	@echo 'This is the unproved build: the same code, not yet proved. `make paxq` builds the proved program.'
	@$(MAKE) --no-print-directory try SCRIPT=examples/first.pxq

try:
	@said=$$(mktemp) && { (cd crates/paxq && rt try -- run "$(abspath $(SCRIPT))" 2> $$said) | examples/beside "$(SCRIPT)" || { cat $$said; rm $$said; false; }; } && rm $$said

test:
	.ci/gate

edits:
	.ci/wrong-bodies --more --write $(CRATES)

refusals: bin/refuse.so
	.ci/refusals bin/refuse.so $(CRATES)

paxq:
	.ci/prove paxq
	cd crates/paxq && rt run -- run "$(CURDIR)/examples/first.pxq"
	mkdir -p bin && cp crates/paxq/out/paxq bin

examples: paxq
	examples/check bin/paxq
	examples/language bin/paxq

measure:
	.ci/prove measure
	cd crates/measure && rt run -- votes 1000
	mkdir -p bin && cp crates/measure/out/measure bin/measure

expressions:
	.ci/prove query_rows
	cd crates/query_rows && rt run -- data/expressions.rows > /dev/null
	mkdir -p bin && cp crates/query_rows/out/query_rows bin/query_rows

updates:
	.ci/prove update_rows
	cd crates/update_rows && rt run -- data/updates.rows > /dev/null
	mkdir -p bin && cp crates/update_rows/out/update_rows bin/update_rows

readers:
	.ci/prove reader_rows
	cd crates/reader_rows && rt run -- data/readers.rows > /dev/null
	mkdir -p bin && cp crates/reader_rows/out/reader_rows bin/reader_rows

record_file:
	.ci/prove record_file
	cd crates/record_file && rm -f out/record_file && { rt run > /dev/null || true; }
	mkdir -p bin && cp crates/record_file/out/record_file bin/record_file

bench: paxq measure expressions updates readers record_file
	bench/run bin/paxq
	bench/limits bin/paxq
	bench/requests bin/paxq
	bench/copies bin/paxq
	bench/parts bin/measure
	bench/nodes bin/paxq bin/measure
	bench/expressions bin/query_rows
	bench/steps bin/query_rows
	bench/updates bin/update_rows
	bench/readers bin/reader_rows
	bench/records bin/record_file
	bench/starts bin/paxq bin/record_file
	bench/random bin/paxq
	bench/worst bin/paxq
	bench/cluster bin/paxq

kills: record_file
	bench/kills bin/record_file
	bench/opens bin/record_file

cluster: paxq
	cluster/all bin/paxq $(CLUSTER_ENDS) $(CLUSTER_DATAGRAMS)

sweep: paxq bin/refuse.so
	bench/sweep bin/paxq bin/refuse.so

bin/refuse.so: bench/refuse.c
	mkdir -p bin && cc -shared -fPIC -O1 -o bin/refuse.so bench/refuse.c -ldl

clean:
	rm -rf bin crates/*/out
