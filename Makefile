# `make run` replays a sample script, `make run FILE=path` another one, `make run FILE=` standard input, and `make test` is the gate.
FILE ?= crates/lockreplay/stdin
PROGRAM := crates/lockreplay/out/lockreplay
VERSION := $(shell sed -n 's/^.. \([0-9.]*\)$$/\1/p' CHANGELOG.md | head -n 1)

.PHONY: run try test build released format memory threads edits conformance torture planted conformance-tests trace-tests docs install library \
    install-library calls embed bench lockfs fuse-test cluster-test cluster-model dist deb install-files

run: released build
	@$(PROGRAM) $(if $(FILE),'$(FILE)')

# The same by the program unproved, a minute or two after an edit.
try:
	@tools/try $(if $(FILE),'$(FILE)')

# Proves and builds the program where it has changed. How far that is goes to standard error, so that `make run` prints the program's
# output alone on standard output.
build:
	@tools/build lockreplay

# Says where a released program of this version is at hand, which runs without the build.
released:
	@at=$$(command -v lockreplay) && [ "$$at" != '$(abspath $(PROGRAM))' ] && [ "$$("$$at" --version < /dev/null 2>&1)" = 'lockreplay $(VERSION)' ] \
	    && echo "$$at is a released lockreplay of this version, $(VERSION), and needs no build" >&2 || true

# The gate, and then the command lines, single lines, devices that fail, growths and threads that are refused, the worked scripts (also in
# threads, in whatever order comes), the large scripts, the samples, and what every order of scripts comes to on the program as two
# compilers built it in the gate, what the library's calls tell C where a C compiler is there, what the README (which links that library),
# the help and the manual page show, the names that the documents point to, that the tests of script_core have these worked scripts, that
# want of memory is made at one place, that each edit still compiles, that some wrong bodies of further-edits/ are refused for what they
# mean, and the conformance tools' tests but for those that a busy machine can upset.
WORKED := $(basename $(wildcard tests/worked-scripts/*.out)) $(wildcard tests/threads/*)
# (one proof a processor: by its own guess of the memory that the two largest crates take, rt leaves processors idle beside them)
test:
	RT_JOBS=$${RT_JOBS:-$$(nproc)} tools/gate-line tools/keep-libraries rt ci
	sh tests/command-line.sh $(PROGRAM)
	sh tests/command-line.sh $(PROGRAM).by-rattle
	sh tests/lines.sh $(PROGRAM)
	sh tests/lines.sh $(PROGRAM).by-rattle
	sh tests/diagnose.sh $(PROGRAM)
	sh tests/diagnose.sh $(PROGRAM).by-rattle
	sh tests/worked-scripts.sh $(PROGRAM)
	sh tests/worked-scripts.sh $(PROGRAM).by-rattle
	sh tests/run-threads.sh $(PROGRAM) 20 $(WORKED)
	sh tests/run-threads.sh $(PROGRAM).by-rattle 20 $(WORKED)
	tests/devices $(PROGRAM)
	tests/devices $(PROGRAM).by-rattle
	sh tests/refusals.sh $(PROGRAM)
	sh tests/large-scripts.sh $(PROGRAM)
	sh tests/large-scripts.sh $(PROGRAM).by-rattle
	sh tests/samples.sh $(PROGRAM)
	sh tests/samples.sh $(PROGRAM).by-rattle
	tests/json-lines $(PROGRAM)
	tests/json-lines $(PROGRAM).by-rattle
	tests/explored $(PROGRAM)
	tests/explored $(PROGRAM).by-rattle --scripts 50
	$(MAKE) --no-print-directory calls
	sh tests/readme.sh $(PROGRAM)
	sh tools/signposts.sh
	sh tools/versions.sh
	sh tests/worked-rows.sh | cmp - crates/script_core_tests/src/tests/worked.rt
	tools/memory-is-passed-on
	sh tools/bad-edits.sh
	tools/edit-reasons --compile
	tools/edit-reasons session_core entry_of_another_step every_journal_is_a_run no_journal_is_a_run \
	    run_all_brings_the_first_request_each_time take_next_is_always_none takes_the_mail_of_a_waiting_process
	tools/edit-reasons call_table closed_is_always_false collect_invents_a_reply collect_is_always_none collect_looks_only_where_it_posted \
	    desk_fills_the_cell_behind_the_next post_is_always_busy serve_one_is_idle_before_the_last_process wait_for_invents_a_reply
	tools/edit-reasons lock_server a_cancel_of_a_queued_wait_frees_nobody an_unlock_of_a_read_lock_frees_nobody grant_comes_before_the_earlier \
	    set_is_tested_as_a_read_lock wait_is_never_detected
	tools/edit-reasons script_core accepts_minus_zero
	tools/edit-reasons replay_core prints_the_first_line_of_a_faulty_script
	cd conformance && LOCKREPLAY=$(abspath $(PROGRAM)) python3 -m unittest tests.test_corpus tests.test_judging tests.test_lies tests.test_torture \
	    tests.test_traces
	tools/gate-line --passed

# Lays each crate out as the gate wants it.
format:
	@for crate in crates/*/; do (cd $$crate && rt fmt) || exit 1; done

# Says of each edit, of those in must-fail/ and in further-edits/, what refuses it, and fails where that is a name alone;
# `make edits EDITS='CRATE EDIT'` tries some.
edits:
	rt all check
	tools/edit-reasons $(EDITS)

# Refuses each growth of runs on the sample and on each worked script in turn, and of the tests that look what a refusal leaves, on what
# was built.
TESTED := lock_book_tests fd_table_tests lock_server_tests lock_manager_tests session_core_tests script_core_tests
memory: build
	sh tests/refuse-growths.sh $(PROGRAM)
	sh tests/refuse-growths.sh $(PROGRAM) crates/lockreplay/stdin
	sh tests/refuse-growths.sh $(PROGRAM) --help
	sh tests/refuse-growths.sh $(PROGRAM) --threads tests/command-line/handed-over
	sh tests/refuse-growths.sh $(PROGRAM) --explain tests/command-line/explained
	sh tests/refuse-growths.sh $(PROGRAM) --state all tests/command-line/state
	sh tests/refuse-growths.sh $(PROGRAM) --state changes tests/command-line/changes
	sh tests/refuse-growths.sh $(PROGRAM) --threads --explain tests/command-line/handed-over
	@for script in $(basename $(wildcard tests/worked-scripts/*.out)); do sh tests/refuse-growths.sh $(PROGRAM) $$script || exit 1; done
	@for crate in $(TESTED) call_table_tests; do (cd crates/$$crate && rt test) > crates/$$crate/out/test.log 2>&1 \
	    || { cat crates/$$crate/out/test.log >&2; exit 1; }; done
	@for crate in $(TESTED); do sh tests/refuse-growths-in-tests.sh crates/$$crate/out/$${crate}_tests || exit 1; done
	sh tests/refuse-growths-in-tests.sh crates/call_table_tests/out/call_table_tests_tests . 'Memory|SpawnError'

# Refuses each thread and each growth of runs in threads in turn, and runs scripts in threads TIMES times: each order is judged by a run
# without threads.
TIMES ?= 1000
THREADED := tests/command-line/deadlock tests/command-line/same-byte $(wildcard tests/threads/*)
threads: build
	@for script in $(THREADED); do sh tests/refuse-threads.sh $(PROGRAM) $$script || exit 1; done
	sh tests/run-threads.sh $(PROGRAM) $(TIMES) $(THREADED)

# What the machine's own locks do: of the file system of a directory, as `make conformance DIR=/dev/shm`.
DIR ?= .
conformance: build
	conformance/locktest --keep-going --lockreplay $(PROGRAM) '$(DIR)'

# The same under many processes that race, for SECONDS; `make planted` looks for ten faults in lockfs by it, and wants libfuse3.
SECONDS ?= 10
torture: build
	conformance/locktorture --seconds $(SECONDS) --lockreplay $(PROGRAM) '$(DIR)'
planted: build library
	LOCKREPLAY=$(abspath $(PROGRAM)) python3 conformance/tests/planted.py

# All the tools' own tests, which want Python 3 and no root; each script of the corpus goes through lockreplay.
conformance-tests:
	cd conformance && LOCKREPLAY=$(abspath $(PROGRAM)) python3 -m unittest discover -t . -s tests

# Programs of the distribution contend for their locks under strace, and each log is explained.
trace-tests: build
	LOCKREPLAY=$(abspath $(PROGRAM)) conformance/tests/trace-programs

# Checks the manual pages; wants mandoc.
docs:
	mandoc -T lint -W warning docs/*.[13]

# The library for C, as an archive and as a shared library, proved and built where it has changed: tools/link-library says how.
LIBRARY := embedding/out/libdehokuna.a
PROVED := crates/lock_server_c/out/liblock_server_c.a
library:
	@tools/build lock_server_c
	@$(MAKE) -s $(LIBRARY)
$(LIBRARY): $(wildcard $(PROVED)) embedding/dehokuna.h tools/link-library
	@mkdir -p embedding/out
	@tools/link-library $(PROVED) embedding/out

# Puts what is released in place below PREFIX: programs, conformance tools, the library, manual pages, completion. What has changed is built
# before, so as root it wants no toolchain where `make install-files` was made. lockfs goes along where libfuse3 is there.
PREFIX ?= /usr/local
install: install-files
	@tools/stage '$(DESTDIR)$(PREFIX)' '$(PREFIX)' lib programs cluster library development licences

install-files: build library
	@if pkg-config --exists fuse3; then $(MAKE) -s lockfs; \
	else rm -f $(LOCKFS); echo 'install: without lockfs: libfuse3 is not there (package libfuse3-dev)' >&2; fi

# The library alone.
install-library: library
	@tools/stage '$(DESTDIR)$(PREFIX)' '$(PREFIX)' lib library development

# A release: dist/dehokuna-VERSION-x86_64-linux.tar.xz, and the wheel for Python, the same bytes each time. It doesn't run the gate, but says
# what the gate left.
dist: build lockfs
	@tools/dist
	@tools/wheel

# The same files as Debian packages, in dist/.
deb: build lockfs
	@tools/deb

# Calls the library from C as a plain build does, also in threads, for the gate; skips where no C compiler is there.
calls:
	@if command -v $(CC) > /dev/null && command -v ar > /dev/null; \
	then $(MAKE) --no-print-directory library && CC='$(CC)' sh embedding/tests/plain.sh '$(abspath $(LIBRARY))' '$(abspath embedding/out)'; \
	else echo 'calls: SKIPPED: no C compiler is there, or no ar, so the library was not called from C'; fi

# Calls the library from C, Python and Rust; wants a C compiler with its sanitizers, and valgrind, pkg-config, C++, rustc, cargo, Python 3 and
# its venv where they are.
embed: library
	@$(MAKE) --no-print-directory install-library DESTDIR= PREFIX='$(abspath embedding/out/installed)' > embedding/out/install.log
	sh embedding/tests/embed.sh '$(abspath $(LIBRARY))' '$(abspath embedding/out)' '$(abspath embedding/out/installed)'
	sh embedding/tests/bindings.sh embedding/out embedding/out/installed

# What the library's calls cost at growing sizes, as docs/PERFORMANCE.md has it; wants a C compiler.
bench: library
	@$(CC) -std=gnu11 -O2 -Wall -Wextra -Wshadow -Iembedding embedding/bench.c $(LIBRARY) -o embedding/out/bench
	@embedding/out/bench

# The file system that has its locks answered by the library; wants libfuse3. Beside it goes what it is with --cluster, on several nodes, where
# corosync's libraries are there (packages libcpg-dev, libcmap-dev, libvotequorum-dev, libcfg-dev); it has its views decided by the proved
# crate cluster_view_c.
LOCKFS := embedding/out/lockfs
LOCKFS_CLUSTER := embedding/out/lockfs-cluster
CLUSTER_LIBRARIES := fuse3 libcpg libcmap libvotequorum libcfg
CLUSTER_SOURCES := $(wildcard embedding/cluster/*.c)
CLUSTER_VIEW := crates/cluster_view_c/out/libcluster_view_c.a
C_FLAGS := -std=gnu11 -O2 -g -ffile-prefix-map='$(CURDIR)=.' -Wall -Wextra -Wshadow -Iembedding
lockfs: library
	@$(MAKE) -s $(LOCKFS)
	@if pkg-config --exists $(CLUSTER_LIBRARIES); then tools/build cluster_view_c && $(MAKE) -s $(LOCKFS_CLUSTER); \
	else rm -f $(LOCKFS_CLUSTER); echo 'lockfs: without --cluster: a library of corosync is not there ($(CLUSTER_LIBRARIES))' >&2; fi
$(LOCKFS): embedding/lockfs/lockfs.c embedding/lockfs/lockfs.h $(LIBRARY)
	$(CC) $(C_FLAGS) embedding/lockfs/lockfs.c $(LIBRARY) $$(pkg-config --cflags --libs fuse3) -o $(LOCKFS)
BUILD_CLUSTER = $(CC) $(C_FLAGS) -DLOCKFS_CLUSTER embedding/lockfs/lockfs.c $(CLUSTER_SOURCES) $(CLUSTER_VIEW) $(LIBRARY) -pthread \
    $$(pkg-config --cflags --libs $(CLUSTER_LIBRARIES))
$(LOCKFS_CLUSTER): embedding/lockfs/lockfs.c embedding/lockfs/lockfs.h $(CLUSTER_SOURCES) $(wildcard embedding/cluster/*.h) $(CLUSTER_VIEW) $(LIBRARY)
	$(BUILD_CLUSTER) -o $(LOCKFS_CLUSTER)

# Programs and the corpus on a mount of it, beside a tmpfs, and what takes no corpus again under valgrind. Skips where there is no FUSE.
fuse-test:
	@if ! pkg-config --exists fuse3; then echo 'fuse-test: skipped: libfuse3 is not there (package libfuse3-dev)'; \
	else $(MAKE) --no-print-directory build lockfs && LOCKREPLAY='$(abspath $(PROGRAM))' embedding/fuse-test $(LOCKFS) \
	    && { ! command -v valgrind > /dev/null \
	        || TRANSACTIONS=40 embedding/fuse-test -- valgrind -q --error-exitcode=9 --leak-check=full --show-leak-kinds=all $(LOCKFS); }; fi

# lockfs on three nodes and five in network namespaces of this machine, under faults, with its histories judged by lockreplay, and copies of lockfs
# with planted faults, which steps have to tell; wants root, corosync and iproute2, and takes some fifteen minutes. Skips where something is missing.
# `make cluster-model` tries parts by themselves, the protocol's rules on models, and replicas in C on the models' net; RUNS is how many.
CLUSTER_TEST := embedding/out/cluster-test
cluster-test: lockfs
	@if [ ! -x $(LOCKFS_CLUSTER) ]; then echo '1..0 # skip lockfs is built without corosync'; \
	else $(MAKE) --no-print-directory build && mkdir -p $(CLUSTER_TEST) && $(BUILD_CLUSTER) -DTEST_HOOKS -o $(CLUSTER_TEST)/lockfs-cluster \
	    && for program in loop latency; do $(CC) $(C_FLAGS) embedding/clustertest/$$program.c -o $(CLUSTER_TEST)/$$program || exit 1; done \
	    && LOCKREPLAY='$(abspath $(PROGRAM))' BUILD_CLUSTER="$(BUILD_CLUSTER)" embedding/cluster-test $(CLUSTER_TEST); fi
RUNS ?= 1000
MODELLED := $(addprefix embedding/cluster/,bytes.c map.c requests.c state.c log.c copy.c own.c purges.c hello.c membership.c round.c decision.c \
    handover.c replica.c tests/sim_group.c)
UNITS := $(addprefix embedding/cluster/,bytes.c map.c requests.c state.c log.c tests/units.c)
cluster-model: library
	@tools/build cluster_view_c && mkdir -p $(CLUSTER_TEST)
	@$(CC) $(C_FLAGS) -fPIC -shared -Wl,-Bsymbolic,-z,now $(MODELLED) $(CLUSTER_VIEW) $(LIBRARY) -o $(CLUSTER_TEST)/replica.so
	@$(CC) $(C_FLAGS) -fsanitize=address,undefined $(UNITS) $(LIBRARY) -o $(CLUSTER_TEST)/units
	$(CLUSTER_TEST)/units
	embedding/cluster/tests/try-rules $(CLUSTER_TEST)/replica.so $(RUNS)
