# `make run` and `make test` do all set-up on a machine that has the kit (`rt` on the PATH).
.PHONY: help run try serve stdin schedule build install uninstall package test mutants golden network metrics compatibility proxy moving fuzz \
	soak coverage-fuzz linearizability allocation-failures differential wrong-definitions core-states outliving manual trying packaging bench picture documents exposition layers definitions kit

help: ## prints this list
	@awk -F ':.*## ' '/^[a-z-]+:.*## / { printf "make %-20s %s\n", $$1, $$2 }' Makefile

run: kit ## compiles mc_stdin without a proof and runs it on its first run, in a minute or two
	@tools/try.sh mc_stdin

# The first tenant's port for try and serve; the second's is the next one.
PORT = 11211
try: kit ## compiles wfmc without a proof and runs it with two tenants on loopback, until it is interrupted or an hour has passed; PORT=11211
	@tools/try.sh wfmc $(PORT)

serve: kit ## proves, builds and runs wfmc with two tenants on loopback, until it is interrupted; PORT=11211
	@tools/try.sh ports $(PORT)
	@tools/prove.sh wfmc >&2
	@printf '%s\n' "The program is crates/wfmc/out/wfmc. Two tenants, each a memcached of its own; talk to the first, for example, by: printf 'set a 0 0 1\\r\\nx\\r\\nget a\\r\\nquit\\r\\n' | nc 127.0.0.1 $(PORT)"
	@exec crates/wfmc/out/wfmc --places 1048576 --generations 0 shop=127.0.0.1:$(PORT),1000000,64000000 blog=127.0.0.1:$$(($(PORT) + 1)),1000000,64000000

stdin: kit ## proves, builds and runs mc_stdin on its first run, and prints what it prints
	@tools/prove.sh mc_stdin >&2
	@crates/mc_stdin/out/mc_stdin <crates/mc_stdin/stdin
	@echo "The program is crates/mc_stdin/out/mc_stdin; feed it from a file or a pipe: printf 'get a\\\\r\\\\n' | crates/mc_stdin/out/mc_stdin"

schedule: kit ## proves, builds and runs mc_schedule on an example, with a picture
	@tools/prove.sh mc_schedule >&2
	@crates/mc_schedule/out/mc_schedule --picture <examples/stopped-worker.schedule
	@echo "The program is crates/mc_schedule/out/mc_schedule; crates/mc_schedule/out/mc_schedule --help says what it reads."

build: kit ## proves and builds the three programs, which make install then installs
	@tools/prove.sh wfmc mc_stdin mc_schedule >&2

# The next two need no kit: root may not have it.
install: ## installs the programs as built, their manual pages, a unit for systemd and the documents; PREFIX=/usr/local SYSCONFDIR=/etc DESTDIR=
	@tools/install.sh install

uninstall: ## removes exactly these; a defaults file that was changed stays
	@tools/install.sh uninstall

package: kit ## proves and builds, and makes a Debian package, a tar file and the tree for an image, in out/package/
	@tools/prove.sh wfmc mc_stdin mc_schedule >&2
	@tools/package.sh

test: kit ## the gate: every proof and mutant of the gate that hasn't passed on this machine as it stands, the tests, and the programs on their golden tests, over sockets and fuzzed
	@tests/gate.sh

mutants: kit ## mutation testing with the full set; CRATES="mc_items fair_queue/push_puts_first" for some crates or mutants
	@tests/mutants_selftest.sh
	@tools/mutants.py $(CRATES)

golden: ## runs the programs, as make test built them, on their golden tests; in the gate too
	@tests/programs.sh

network: kit ## tests wfmc over sockets: the golden tests of mc_stdin, and clients that others must not notice; in the gate too
	@tools/prove.sh wfmc >&2
	@python3 tests/network.py

metrics: kit ## tests the metrics of wfmc over sockets, in half a minute: numbers, scrapes at full speed beside clients, and requests that are slow, huge or none; in the gate too
	@tools/prove.sh wfmc >&2
	@python3 tests/metrics.py

compatibility: kit ## the compatibility suite: wfmc, and mc_stdin behind a relay, by four clients, compared with memcached; installs what it needs where it may
	@tools/prove.sh wfmc mc_stdin >&2
	@tools/compatibility.sh
	@tools/compatibility.sh mc_stdin

proxy: kit ## tests twemproxy over three instances of wfmc; installs what it needs where it may
	@tools/prove.sh wfmc >&2
	@tools/proxy.sh

moving: kit ## tests moving a tenant from memcached, behind twemproxy, as docs/CLIENTS.md has it; installs what it needs where it may
	@tools/prove.sh wfmc >&2
	@tools/moving.sh

# How many minutes the fuzzer takes, and as many the histories, each time; and after how many bytes of commands a log is closed at the third.
MINUTES = 2
LOG_BYTES = 4000
fuzz: linearizability ## fuzzes wfmc over sockets for three times MINUTES (2), over one log and over logs closed by places and by bytes, the last two with the memory that OPERATING says, after make linearizability
	@python3 tests/fuzz.py $$(($(MINUTES) * 60))
	@python3 tests/fuzz.py $$(($(MINUTES) * 60)) --generations --within
	@python3 tests/fuzz.py $$(($(MINUTES) * 60)) --generations --within --log-bytes $(LOG_BYTES)

soak: kit ## the fuzzer, the histories of clients and noisy neighbours side by side, for MINUTES (2) with each of 1, 2 and 4 workers, in the memory that OPERATING says
	@tools/prove.sh wfmc >&2
	@tests/soak.sh $(MINUTES)

coverage-fuzz: kit ## fuzzes the reader for MINUTES (2), guided by the code that it reaches, after proving and building it with counters
	@python3 tests/coverage_fuzz.py --minutes $(MINUTES)

linearizability: kit ## tests for three times MINUTES (2) that the histories of wfmc's clients are linearizable, over one log and over logs closed by places and by bytes
	@tools/prove.sh wfmc >&2
	@python3 tests/linearizability.py --self-test
	@python3 tests/linearizability.py $$(($(MINUTES) * 60))
	@python3 tests/linearizability.py $$(($(MINUTES) * 60)) --generations --within
	@python3 tests/linearizability.py $$(($(MINUTES) * 60)) --generations --within --log-bytes $(LOG_BYTES)

allocation-failures: kit ## runs the programs, calls of workers, and the tests of the cells and of a turn over, with each allocation refused in turn, mc_stdin with less and less memory, and wfmc within its number of bytes
	@tools/prove.sh wfmc mc_stdin mc_schedule refusals >&2
	@python3 tests/memory_limits.py
	@python3 tests/memory_bound.py
	@python3 tests/allocation_failures.py

differential: kit ## a differential test: compares mc_schedule with an oracle over random event lists
	@tools/prove.sh mc_schedule >&2
	@python3 tests/differential.py

wrong-definitions: ## prints which law each wrong definition of the shared log breaks: the table of docs/QUESTIONS.md; in the gate too
	@python3 tests/wrong_definitions.py

core-states: ## counts the reachable states of a small core, as many as a test of uc_core_tests has to find; in the gate too
	@python3 tests/core_states.py

outliving: kit ## tests that the borrow checker refuses a replica, a reply and tables that are kept past what they borrow from, in some minutes
	@python3 tests/outliving.py

manual: ## checks the manual pages against the programs as built, and tests installing into temporary folders; in the gate too
	@tests/manual.sh
	@tests/install_selftest.sh

trying: kit ## tests make try and make run, in some minutes; what needs no compiling is in the gate too
	@tests/try_selftest.sh

packaging: ## tests the packages of the programs as built: installing, serving, upgrading and purging under a temporary root; in the gate too
	@tests/package_selftest.sh

bench: kit ## measures the built programs; the figures of docs/BENCHMARKS.md come from it
	@tools/prove.sh wfmc mc_stdin mc_schedule benches >&2
	@python3 bench/stdin.py
	@python3 bench/items.py
	@python3 bench/cost.py
	@bench/benches.sh reader
	@bench/benches.sh cells
	@bench/benches.sh places 31
	@python3 bench/submits.py
	@python3 bench/rows.py 1 --seconds 2 --log-bytes 268435456
	@python3 bench/wfmc.py
	@python3 bench/neighbours.py
	@python3 bench/operating.py
	@python3 bench/residents.py
	@python3 bench/generations.py
	@python3 bench/schedule.py
	@python3 bench/profile.py

picture: ## draws docs/house.svg anew from crates.txt
	@tools/picture.py

documents: ## writes docs/PROMISES.md and the numbers in docs/DEFINITIONS.md anew from the sources
	@python3 tools/promises.py
	@python3 tools/reading.py --write

exposition: kit ## holds the metrics of an example against an oracle, and against promtool where it is installed; in the gate too
	@tools/prove.sh mc_scrape >&2
	@python3 tests/exposition.py

layers: ## checks that a definition's name is used once, and that no crate cites another's proofs but those of a crate of lemmas; in the gate too
	@python3 tools/layers.py

definitions: ## lists the definitions that the headline's clauses stand on, and how long the definitions of each crate are
	@python3 tools/reading.py
	@python3 tools/reading.py --sizes

# A clear message where the kit is missing, in place of the shell's.
kit:
	@command -v rt >/dev/null || { echo 'The kit is missing: put its folder bin, with the command rt, on your PATH.' >&2; exit 1; }
