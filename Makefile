# make run        prove every crate, keeping what has not changed since the last run, replay the sample log, and leave the program,
#                 target/bin/replay
# make test       the gate: prove every crate, keeping only what the gate itself proved of the same files on this machine, try the
#                 must-fail edits, run the programs, compare with the second program
# make bench      the proved replay and the second program on 2,000,000 lines, then the library's calls and the second program's (after
#                 make run and make lib, or make test)
# make lib        prove the library for C and make its archive, target/staticlib/libpellacrosta.a
# make install    archive, header, pkg-config file and replay program to PREFIX (after make lib and make run; it only copies)
# make uninstall  takes away what make install put there

# Where things are installed. DESTDIR, for packagers, stands before it and is written nowhere.
PREFIX ?= /usr/local
DESTDIR ?=

# What is installed.
archive = target/staticlib/libpellacrosta.a
replay = target/bin/replay

# Where rt leaves the two, each in its crate's folder.
archive_made = crates/pellacrosta_c/out/libpellacrosta_c.a
replay_made = crates/replay/out/replay

# Where to. A program named plain `replay` in everybody's path would be rude.
to_archive = $(DESTDIR)$(PREFIX)/lib/libpellacrosta.a
to_header = $(DESTDIR)$(PREFIX)/include/pellacrosta.h
to_package = $(DESTDIR)$(PREFIX)/lib/pkgconfig/pellacrosta.pc
to_replay = $(DESTDIR)$(PREFIX)/bin/pellacrosta-replay

.PHONY: run test bench lib install uninstall

run:
	@rt all check
	@cd crates/replay && rt run < ../../samples/story.log
	@install -D -m 755 '$(replay_made)' '$(replay)'

test:
	@tests/all

bench:
	@bench/run
	@cargo run --quiet --release --offline --locked --manifest-path bench/calls/Cargo.toml --target-dir target/calls

lib:
	@cd crates/pellacrosta_c && rt lib
	@install -D -m 644 '$(archive_made)' '$(archive)'

install:
	@case '$(PREFIX)' in '' | [!/]* | *[!A-Za-z0-9/._+~-]*) echo "install: PREFIX must be a plain absolute path" >&2; exit 1;; esac
	@test -f '$(archive)' || { echo "install: no $(archive); 'make lib' makes it" >&2; exit 1; }
	@test -x '$(replay)' || { echo "install: no $(replay); 'make run' makes it" >&2; exit 1; }
	install -D -m 644 '$(archive)' '$(to_archive)'
	install -D -m 644 include/pellacrosta.h '$(to_header)'
	install -D -m 644 pellacrosta.pc.in '$(to_package)'
	sed -i 's|@PREFIX@|$(PREFIX)|' '$(to_package)'
	install -D -m 755 '$(replay)' '$(to_replay)'

uninstall:
	rm -f '$(to_archive)' '$(to_header)' '$(to_package)' '$(to_replay)'
