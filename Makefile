# make demo, make test: all the set-up that is needed, nothing else. The rest is for whoever works on the unit.
.PHONY: demo test archive samples sheet ball sheets differential real-time bench instructions answers proof-times

CC ?= cc
CFLAGS = -std=c11 -O2 -Wall -Wextra -Werror -Iinclude
ARCHIVE = target/staticlib/libstation.a
PLAIN = cargo run --quiet --release --offline --manifest-path bindings/compare/Cargo.toml
MACHINE = . tools/machine
SHEET = $(MACHINE) && python3 tools/sheet.py "$$runner target/chain"
FRAMED = --saturated "$$runner target/ranges"
BALL = $(MACHINE) && can "the ball" "$$no_rust" && cargo run --quiet --offline $$cross_cargo --manifest-path bindings/rust/Cargo.toml --example lit_ball
PNG = python3 -B tools/png.py
export SWATHECOLD_LIB = $(CURDIR)/target/staticlib
export CARGO_TARGET_DIR = $(CURDIR)/target/cargo

# Lists the levels of every sample picture.
demo:
	@tools/demo

# Proves every crate, tries every wrong program, runs the programs, the C programs and the Rust tests. Ends with rt ci's last line.
test:
	@tools/test

# The archive that C and Rust link. rt proves what has changed since it was last proved.
archive:
	@tools/archive

target/chain target/ranges: target/%: tools/%.c tools/txr.h include/swathecold.h | archive
	@$(MACHINE) && can $@ "$$no_c" && $${cross_cc:-$(CC)} $(CFLAGS) $< $(ARCHIVE) -o $@

samples:
	python3 tools/pictures.py samples

# make sheet PICTURE=samples/hammered_grey.txr: the picture and all its levels on one sheet, target/sheet.png.
# make sheet PICTURE=samples/sprayed_sheet.txr SATURATED=1: the picture, and beside it the same with its saturated tiles framed.
PICTURE ?= samples/hammered_grey.txr
sheet: target/chain target/ranges
	$(SHEET) $(PICTURE) target/sheet.png $(if $(SATURATED),$(FRAMED))

# make ball STUDIO=samples/studio.txr: a grey ball in the studio's light, target/ball.png.
STUDIO ?= samples/studio.txr
ball: archive
	$(BALL) $(STUDIO) | $(PNG) target/ball.png

# The pictures that the README shows.
sheets: target/chain target/ranges
	$(SHEET) samples/hammered_grey.txr docs/levels.png
	$(SHEET) samples/hammered_grey.txr docs/accident.png --accident
	$(SHEET) samples/sprayed_sheet.txr docs/saturated.png $(FRAMED)
	$(BALL) samples/studio.txr | $(PNG) docs/lit_ball.png

# The long comparison with document 01 read plainly and, where they are given (SWRASTER_SRC), the station's own sources; then the
# square root alone beside the C library's.
differential: archive
	@$(MACHINE); unit="$$cross_cargo --features unit"; can "the unit in the comparison" "$$no_rust" || unit=; \
	  $(PLAIN) $$unit --bin differential -- large
	tools/roots
	tools/memory

# Unit and source side by side, as ratios.
bench: real-time archive
	$(PLAIN) --features unit --bin bench

real-time:
	@$(MACHINE) && can bench "$${runner:+a time taken in an emulator says nothing}"

# Instructions a call of each lookup, and a texel of each kind's chain and of its check: counted, not timed.
instructions: archive
	@tools/instructions

# Makes the stored answers again that crates/replay runs, from document 01 read plainly: no unit is asked.
answers:
	$(PLAIN) --bin answers -- make crates/replay/data/answers.bin

# Check time, code lines, definition lines and proof lines of each crate.
proof-times:
	@tools/proof-times
