# make demo      builds everything, then explains, plays, rehearses, moves and draws a shipped show
# make test      the gate: every proof, the must-fail edits, the layout, the library and the programs in use
# make prove     the proofs alone, without the edits; what has not changed is not proved again
# make lib       the library alone: target/staticlib/libwosthile.a
# make programs  the program of document 01, target/bin/runner, and the example programs in C
# make play      a show at 60 frames a second: make play SHOW=examples/shows/lamp_fade.show SEED=3
# make rehearse  the same recording, cut anew again and again: make rehearse SHOW=.. CUTS=1000 SEED=1
# make picture   a show as an SVG time line in target/, a panel for each cut: make picture SHOW=.. SEEDS='0 19'
# make diagram   the patch of a show as an SVG diagram in target/: make diagram SHOW=..
# make shows     writes the shipped shows anew, from the scores beside them
# make example   builds examples/calls.c, a few calls of the library, and runs it
# make fuzz      random calls and runs of feeds, compared with the second interpreter: make fuzz SECONDS=600 SEED=7
# make streams   the program on random streams, compared with the second interpreter's: make streams STREAMS=20000 SEED=7
# make measure   how long the program takes for 100,000 slices, and how much memory
# make bench     times and instruction counts of the library beside the second interpreter; fails if a goal is missed in
#                the median of the runs: make bench RUNS=3
# make branches  the library's instructions and branches in each row of the benchmark, and in all feeds of each shipped show
# make install   archive, header and wosthile.pc: make install PREFIX=/usr/local DESTDIR=
# make clean     removes all that was built

SHELL = /bin/bash
SHOW = examples/shows/comet_to_saturn.show
CUTS = 1000
SEEDS = 0 19
SECONDS = 60
STREAMS = 5000
RUNS = 3
SEED = 1
PREFIX = /usr/local
DESTDIR =

ARCHIVE = target/staticlib/libwosthile.a
RUNNER = target/bin/runner
CFLAGS = -std=c11 -O2 -Wall -Wextra -pedantic
EXAMPLES = $(patsubst examples/%.c,target/%,$(wildcard examples/*.c))
CARGO = CARGO_TARGET_DIR=target/cargo cargo
LOCKED = --quiet --offline --locked
CHECKED = $(LOCKED) --profile checked

.PHONY: demo test prove lib programs play rehearse picture diagram shows example fuzz streams measure bench branches install clean
demo: programs
	examples/demo.sh '$(SHOW)'

test:
	.ci/run

prove:
	rt all check

lib: $(ARCHIVE)

programs: $(RUNNER) $(EXAMPLES)

play: target/frame_loop
	target/frame_loop '$(SHOW)' --seed $(SEED)

rehearse: target/rehearsal
	target/rehearsal '$(SHOW)' $(CUTS) $(SEED)

picture: target/timeline
	examples/draw.sh "target/$$(basename '$(SHOW)' .show).svg" target/timeline '$(SHOW)' $(SEEDS)

diagram: target/diagram
	examples/draw.sh "target/$$(basename '$(SHOW)' .show)_patch.svg" target/diagram '$(SHOW)'

shows: target/make_show
	for score in examples/shows/*.score; do target/make_show $$score || exit; done

example: target/calls
	target/calls

# For any x86-64, as the header says; the kit's default asks for more.
PROCESSOR = --cpu=x86-64

# Specifications and proofs change no byte of the archive or the program.
SOURCES = crates.txt $(shell find crates -name out -prune -o -name '*.rt' -print)
$(ARCHIVE): $(SOURCES)
	@$(call proving,wosthile_c,rt lib $(PROCESSOR))
	@install -D -m 644 crates/wosthile_c/out/libwosthile_c.a $@

# A program is built when it is run.
$(RUNNER): $(SOURCES)
	@$(call proving,runner,rt run $(PROCESSOR) </dev/null)
	@install -D crates/runner/out/runner $@

# The prover's log goes to a file, and a line for each crate to the screen; of a failure the end of the log too.
PROVER_LOG = target/prover.log
EACH_CRATE = /^crate / { name = $$2 } /^logic=proved/ { print "  " name " proved"; fflush() }
proving = mkdir -p target; echo '$(2) in crates/$(1), with its log in $(PROVER_LOG):'; set -o pipefail; \
	(cd crates/$(1) && $(2)) 2>&1 | tee $(PROVER_LOG) | awk '$(EACH_CRATE)' || { tail -n 40 $(PROVER_LOG); exit 1; }

# A program is one file and what all programs share.
HEADERS = $(wildcard examples/shared/*.h) include/wosthile.h
SHARED = $(patsubst examples/shared/%.c,target/shared/%.o,$(wildcard examples/shared/*.c))
$(SHARED): target/shared/%.o: examples/shared/%.c $(HEADERS)
	@mkdir -p target/shared
	$(CC) $(CFLAGS) -Iinclude -c $< -o $@

target/shared/libshared.a: $(SHARED)
	@rm -f $@
	ar rcs $@ $^

$(EXAMPLES): target/%: examples/%.c target/shared/libshared.a $(HEADERS) $(ARCHIVE)
	$(CC) $(CFLAGS) -Iinclude -Iexamples/shared -pthread $< target/shared/libshared.a $(ARCHIVE) -o $@

fuzz: $(ARCHIVE)
	$(CARGO) run $(CHECKED) --package comparison -- --seconds $(SECONDS) --seed $(SEED)

streams: $(ARCHIVE) $(RUNNER)
	$(CARGO) run $(CHECKED) --package program -- --program $(RUNNER) --streams $(STREAMS) --seed $(SEED)

measure: $(ARCHIVE) $(RUNNER)
	$(CARGO) run $(CHECKED) --package program -- --measure $(RUNNER)

bench: $(ARCHIVE)
	$(CARGO) build $(LOCKED) --release --package bench
	bench/instructions.sh target/cargo/release/bench >target/instructions
	target/cargo/release/bench --runs $(RUNS) --instructions target/instructions

branches: $(ARCHIVE) target/frame_loop
	@$(CARGO) build $(LOCKED) --release --package bench
	@bench/branches.sh target/cargo/release/bench target/frame_loop examples/shows/*.show

install: $(ARCHIVE)
	install -d $(DESTDIR)$(PREFIX)/lib/pkgconfig $(DESTDIR)$(PREFIX)/include
	install -m 644 $(ARCHIVE) $(DESTDIR)$(PREFIX)/lib
	install -m 644 include/wosthile.h $(DESTDIR)$(PREFIX)/include
	sed -e 's|@PREFIX@|$(PREFIX)|' -e "s|@RELEASE@|$$(sed -n 's/^#define WOSTHILE_RELEASE "\(.*\)"/\1/p' include/wosthile.h)|" \
		wosthile.pc.in >$(DESTDIR)$(PREFIX)/lib/pkgconfig/wosthile.pc
	chmod 644 $(DESTDIR)$(PREFIX)/lib/pkgconfig/wosthile.pc

clean:
	rm -rf target crates/*/out
