include host/machine.mk

.PHONY: run test ready proved-report host-programs host-test peer-test wire-peer tshark-there second-test install bench bench-quick bench-plot bench-program

# One story, the script beside what the program reports of it: make run SCRIPT=examples/one-yard.txt
SCRIPT ?= examples/example.txt

run: $(REPORT) target/second/debug/script
	@target/second/debug/script < $(SCRIPT) > target/input || { echo "$(SCRIPT) is not run"; exit 1; }
	@$(REPORT) < target/input > target/output
	@awk -f examples/beside.awk target/output $(SCRIPT)

target/second/debug/script: $(shell find second/src -type f) second/Cargo.toml
	cargo build --quiet --offline --manifest-path second/Cargo.toml --target-dir target/second
	@touch $@

# What the proved parts are made of, but for what rt leaves in each crate's out/. Proving them all takes long the first time.
PROVED = crates.txt $(shell find crates -path 'crates/*/out' -prune -o \( -name '*.rt' -o -name '*.antt' \) -print)

# rt run proves the program and runs it too: here on no input, since only the file is wanted.
target/bin/report: $(PROVED)
	cd crates/report && rt run </dev/null >/dev/null
	@$(MAKE) --no-print-directory proved-report

# What rt has just proved and built, as it lies in the crate's out/. The gate takes what rt ci ran.
proved-report:
	@mkdir -p target/bin
	cp crates/report/out/report target/bin/report

target/emulated/report: target/bin/report
	@mkdir -p $(@D)
	@printf '#!/bin/sh\nexec %s\n' '$(RUN_REPORT) $(CURDIR)/$<' > $@
	@chmod +x $@

# The host's programs. The tests are built with sanitizers; libpws.a itself is not instrumented.
HOST_TESTS = samples wrapper rules edges segments periods conversion wire wire_encoding wire_elements responses wrong_answers
HOST_EXAMPLES = two_yards answer_on_wire cancel_from_wire response_from_wire
HOST_SCRIPTS = example kept_messages compilers readme install names ctest
HOST_FLAGS = -std=c++20 -Wall -Wextra -Wpedantic -Wconversion -Werror -Ihost/include
HOST_HEADERS = $(wildcard host/include/* host/tests/*.hpp host/example/*.hpp host/wire/*.hpp)
HOST_NEEDS = $(HOST_HEADERS) target/staticlib/libpws.a

host-programs: $(HOST_TESTS:%=target/host/%) $(HOST_EXAMPLES:%=target/host/%) target/host/wire_messages

$(HOST_TESTS:%=target/host/%): target/host/%: host/tests/%.cpp $(HOST_NEEDS)
	@mkdir -p $(@D)
	$(CXX) $(HOST_FLAGS) -g -fsanitize=$(SANITIZE) $< target/staticlib/libpws.a -o $@

$(HOST_EXAMPLES:%=target/host/%): target/host/%: host/example/%.cpp $(HOST_NEEDS)
	@mkdir -p $(@D)
	$(CXX) $(HOST_FLAGS) -O2 $< target/staticlib/libpws.a -o $@

# What writes the kept messages needs no library.
target/host/wire_messages: host/wire/wire_messages.cpp $(HOST_HEADERS)
	@mkdir -p $(@D)
	$(CXX) $(HOST_FLAGS) -Ihost/tests -g -fsanitize=$(SANITIZE) $< -o $@

host-test: host-programs
	@host/tests/all.sh $(HOST_TESTS:%=target/host/%) $(HOST_SCRIPTS:%=host/tests/%.sh)

# The same tests of the engine by hand, on any processor, with every line of it instrumented: so the wrapper and the tests meet
# AddressSanitizer where libpws.a is emulated, and the peer meets the guard pages.
PEER_FLAGS = -g -fsanitize=address,undefined -fno-sanitize-recover=all -DPWS_OTHER_LIBRARY
PEER_NAMES = $(foreach name,build convert apply read write item segment pack read_cancel write_response read_response,-Dpws_$(name)=peer_$(name))
PEER_SOURCES = $(wildcard bench/*.cpp bench/peer/*.hpp) host/include/pws.h

target/host/peer/peer.o: $(PEER_SOURCES)
	@mkdir -p $(@D)
	$(NATIVE_CXX) -std=c++20 -O1 -Wall -Wextra -Werror -Ihost/include $(PEER_FLAGS) -c bench/peer.cpp -o $@

$(HOST_TESTS:%=target/host/peer/%): target/host/peer/%: host/tests/%.cpp target/host/peer/peer.o $(HOST_HEADERS)
	$(NATIVE_CXX) $(HOST_FLAGS) $(PEER_FLAGS) $(PEER_NAMES) $< target/host/peer/peer.o -o $@

$(HOST_EXAMPLES:%=target/host/peer/%): target/host/peer/%: host/example/%.cpp target/host/peer/peer.o $(HOST_HEADERS)
	$(NATIVE_CXX) $(HOST_FLAGS) $(PEER_FLAGS) $(PEER_NAMES) $< target/host/peer/peer.o -o $@

target/host/peer/wire_messages: host/wire/wire_messages.cpp $(HOST_HEADERS)
	@mkdir -p $(@D)
	$(NATIVE_CXX) $(HOST_FLAGS) $(PEER_FLAGS) -Ihost/tests $< -o $@

# Leaks are not looked for: neither the peer nor the wrapper allocates, and on Arm the look takes seconds of each of some 160 runs.
peer-test: $(HOST_TESTS:%=target/host/peer/%) $(HOST_EXAMPLES:%=target/host/peer/%) target/host/peer/wire_messages
	@RUN= PROGRAMS=target/host/peer ASAN_OPTIONS=detect_leaks=0 host/tests/all.sh $(HOST_TESTS:%=target/host/peer/%) host/tests/example.sh host/tests/kept_messages.sh

# The kept messages read by tshark, which nobody here wrote. Not part of the gate: it needs the package tshark.
# make wire-peer WIRE_READERS=target/host/peer asks the engine by hand instead of the library.
WIRE_READERS ?= target/host

wire-peer: tshark-there $(WIRE_READERS)/cancel_from_wire $(WIRE_READERS)/response_from_wire
	@host/wire/tshark.sh $(WIRE_READERS)

# Before anything is built.
tshark-there:
	@host/wire/tshark.sh

# The second implementation, compared with the library and with the program. Where these are emulated, so is what is linked to the
# library, and nothing else.
SECOND = CARGO_TARGET_DIR=$(CURDIR)/target/second PWS_REPORT=$(CURDIR)/$(REPORT)
SECOND_LINKED = CARGO_TARGET_DIR=$(CURDIR)/target/second PWS_LIB_DIR=$(CURDIR)/target/staticlib
SECOND_TEST = test --offline --quiet --manifest-path second/Cargo.toml

second-test: target/staticlib/libpws.a $(REPORT)
ifdef CROSS_CARGO
	$(SECOND) cargo $(SECOND_TEST) -- --nocapture --skip the_c_library_is_skipped
	$(SECOND_LINKED) $(CROSS_CARGO) $(SECOND_TEST) --test differential -- --nocapture c_library
else
	$(SECOND) PWS_LIB_DIR=$(CURDIR)/target/staticlib cargo $(SECOND_TEST) -- --nocapture
endif

# What is installed names neither DESTDIR nor PREFIX, so it may be staged and moved.
PREFIX ?= /usr/local
INTO = $(DESTDIR)$(PREFIX)
VERSIONED = sed 's|@VERSION@|$(shell cat host/VERSION)|'

install: target/staticlib/libpws.a
	install -d "$(INTO)/include" "$(INTO)/lib/pkgconfig" "$(INTO)/lib/cmake/pws"
	install -m 644 host/include/*.h host/include/*.hpp "$(INTO)/include"
	install -m 644 target/staticlib/libpws.a "$(INTO)/lib"
	install -m 644 host/pws-config.cmake "$(INTO)/lib/cmake/pws"
	$(VERSIONED) host/pws-config-version.cmake.in | install -m 644 /dev/stdin "$(INTO)/lib/cmake/pws/pws-config-version.cmake"
	$(VERSIONED) host/pws.pc.in | install -m 644 /dev/stdin "$(INTO)/lib/pkgconfig/pws.pc"

target/staticlib/libpws.a: $(PROVED)
	cd crates/pws_c && rt lib
	@mkdir -p $(@D)
	cp crates/pws_c/out/libpws_c.a $@

# Times against the C++ engine written by hand and against second/ (docs/SPEED.md). PWS_REPORT=/path adds the report program.
BENCH = target/bench/$(if $(TRIPLE),$(TRIPLE)/)release
ifdef RUN
bench bench-plot:
	@echo "Times are taken on x86-64 alone: here the library is emulated ($(MACHINE)). make bench-quick compares without times."; exit 1
else
bench: bench-program target/bin/report
	PWS_REPORT=$(CURDIR)/target/bin/report SECOND_REPORT=$(CURDIR)/$(BENCH)/report $(BENCH)/bench

bench-plot: bench-program
	$(BENCH)/bench --growth target/bench
	gnuplot bench/growth.gp
endif

# Only that all three agree; the times are a glance and not judged.
bench-quick: bench-program
	$(RUN) $(BENCH)/bench $(QUICK)

bench-program: target/bench/libpeer.a target/staticlib/libpws.a
	$(or $(CROSS_CARGO),cargo) build --quiet --offline --release --manifest-path second/Cargo.toml --target-dir target/bench
	PWS_LIB_DIR=$(CURDIR)/target/staticlib PEER_LIB_DIR=$(CURDIR)/target/bench \
	    $(or $(CROSS_CARGO),cargo) build --quiet --offline --release --manifest-path bench/Cargo.toml --target-dir target/bench

# Its own object, so that no call is inlined into the bench program.
target/bench/libpeer.a: $(PEER_SOURCES)
	mkdir -p target/bench
	$(CXX) -std=c++20 -O3 -Wall -Wextra -Werror -fno-exceptions -fno-rtti -Ihost/include -c bench/peer.cpp -o target/bench/peer.o
	$(CXX) -std=c++20 -O3 -Wall -Wextra -Werror -fno-exceptions -fno-rtti -c bench/floor.cpp -o target/bench/floor.o
	rm -f $@
	ar rcs $@ target/bench/peer.o target/bench/floor.o

# What the gate needs, seen to before anything is proved.
ready:
	@host/ready.sh $(NEEDS)

# The gate.
test:
	.ci/run
