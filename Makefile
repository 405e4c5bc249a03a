# The commands of the README.
.PHONY: play frame listen station reply bus send test staticlib bench soak

# A telegram to play, data to frame, and bytes to feed to a receiving half, in hex.
TELEGRAM = 60 FF 12 13 55 00 03 BB 01 01 2C 01 00 01
DATA = 60 10 02
BYTES = 02 60 10 10 10 03 63
# How often a sending half opens for each block, and how often it sends the block.
CONNECTIONS = 2
BLOCKS = 2
# How long to go on comparing, and the seed to begin with.
MINUTES = 10
SEED = 1
export OWN TELEGRAM DATA BYTES PRIORITY CONNECTIONS BLOCKS

# What a command that plays takes. A typo plays nothing: a variable that it does not take, one that is missing, and a
# telegram without its quotation marks, whose bytes would be further goals.
play_takes = TELEGRAM
frame_takes = DATA
listen_takes = BYTES
station_takes = OWN TELEGRAM
station_needs = OWN TELEGRAM
reply_takes = TELEGRAM
reply_needs = TELEGRAM
bus_takes = OWN BYTES
bus_needs = OWN BYTES
send_takes = PRIORITY DATA BYTES CONNECTIONS BLOCKS
send_needs = PRIORITY DATA BYTES
played := $(firstword $(filter play frame listen station reply bus send,$(MAKECMDGOALS)))
ifdef played
given := $(foreach word,$(MAKEOVERRIDES),$(if $(findstring =,$(word)),$(firstword $(subst =, ,$(word)))))
ifneq ($(words $(MAKECMDGOALS)),1)
$(error one command at a time, with its bytes in quotation marks and no space before them: make play TELEGRAM="60 FF 12 00 00 00")
endif
ifneq ($(filter-out $($(played)_takes) CC,$(given)),)
$(error make $(played) takes $($(played)_takes), and not $(filter-out $($(played)_takes) CC,$(given)))
endif
ifneq ($(filter-out $(given),$($(played)_needs)),)
$(error make $(played) needs $(filter-out $(given),$($(played)_needs)))
endif
endif

# Plays TELEGRAM through the net of the program dry_run, the stations 12, 13 and 55.
play:
	@sh scripts/play "$$TELEGRAM" dry_run

# Frames DATA, and feeds the frame to a receiving half.
frame:
	@sh scripts/play "$$DATA" run_cases frame

# Feeds BYTES to a receiving half as they are, good frame or not.
listen:
	@sh scripts/play "$$BYTES" run_cases listen

# Hands TELEGRAM, or several with commas between them, to the station with the address OWN and factory registers.
station: target/bin/telegram
	@target/bin/telegram station "$$OWN" "$$TELEGRAM"

# Lets the centre read TELEGRAM.
reply: target/bin/telegram
	@target/bin/telegram reply "$$TELEGRAM"

# Feeds BYTES to the receiver of the address OWN on the gate bus. The timer runs out at each comma between them.
bus: target/bin/telegram
	@target/bin/telegram bus "$$OWN" "$$BYTES"

# Has the sending half of a cable's end, whose PRIORITY is low or high, send DATA, and feeds it BYTES. The timer runs out at
# each comma between them.
send: target/bin/telegram
	@target/bin/telegram send "$$PRIORITY" "$$CONNECTIONS" "$$BLOCKS" "$$DATA" "$$BYTES"

# All that the crates are made of. What rt keeps of them, in crates/NAME/out, is no part of it; folders are, for files that go.
SOURCES := crates.txt $(shell find crates -mindepth 2 -name out -prune -o -print)
# Nothing makes them; so make need not look for how.
$(SOURCES): ;

# The programs are proved and built when anything below crates has changed since they were built.
target/bin/dry_run target/bin/run_cases target/bin/run_send_cases: $(SOURCES)
	@sh scripts/program $(@F)

# The example for C, compiled when it, the header or the library has changed.
target/bin/telegram: examples/c/telegram.c include/hanraquin.h target/staticlib/libhanraquin.a
	@mkdir -p target/bin
	@$(CC) -std=c99 -O2 -Wall -Wextra -Wpedantic -Iinclude $< target/staticlib/libhanraquin.a -o $@

# Proves and tests everything; what an earlier run on this machine passed is not proved again.
test:
	@sh scripts/test

# The library for C and Rust: the crates that export its functions, and its archive. A group that is added names its crate of
# exports here.
LIBRARY = c_link_c c_link_send_c c_mop_c c_net_c c_gate_c
ARCHIVE = target/staticlib/libhanraquin.a

# Proves and builds the library, unless nothing has changed since it was built.
staticlib: $(ARCHIVE)

$(ARCHIVE): Makefile scripts/archive $(SOURCES)
	@printf 'Proving and compiling the library for C and Rust: %s ..\n' "$@"
	@sh scripts/archive $@ $(LIBRARY)

# Measures the library beside plain Rust written for speed, and prints how; then the bytes of its code and constants, and the
# times of the last make test.
bench: staticlib
	@env -u HANRAQUIN_LIB_DIR cargo run --offline --quiet --release --manifest-path rust/Cargo.toml -p compare --bin bench
	@sh scripts/sizes $(ARCHIVE)
	@sh scripts/times

# Goes on comparing the library with the reference, with ever new inputs.
soak: staticlib
	@env -u HANRAQUIN_LIB_DIR cargo run --offline --quiet --release --manifest-path rust/Cargo.toml -p compare --bin compare -- --soak $(MINUTES) $(SEED)
