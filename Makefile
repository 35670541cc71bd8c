# SPDX-License-Identifier: MIT OR Apache-2.0
# make            builds the archive for C hosts, target/staticlib/libhost.a: proves `host` and what it uses (to test, say `make test`)
# make demo       a C host that plays a tune on the board: builds and runs examples/tune.c and says where its WAV file and its picture are
# make test       the gate: every proof and must-fail edit from nothing, the C calls, and the comparison with the Rust if its sources are found
# make quick      the gate on what has changed, without the must-fail edits: for the daily loop
# make install    header, archive (as libnamco163.a), namco163.pc and licences below PREFIX, or /usr/local; DESTDIR goes before it
# make uninstall  removes what `make install` put there
# make clean      removes target/, what the prover kept and what cargo built
# make help       prints these lines
#
# Parts of the gate, each alone:
# make edges      holds crates.txt and the picture of docs/ARCHITECTURE.md to the files
# make promises   holds docs/PROMISES.md to docs/SCOPE.md, looks up what it names, and the clauses and documents that comments cite
# make replays    replays the recorded sessions
# make c-host     the header, the C calls, the README's example, the demonstration and the installed files
# make compare    the comparison with the Rust
#
# make sessions   records anew, by the Rust, what `make replays` replays, but for the malformed lines
# make bench      times against the Rust, where its sources are found
# make fmt        the format of the Rattle sources

PREFIX ?= /usr/local
archive := target/staticlib/libhost.a
program := target/bin/replay
sources := crates.txt $(shell find crates -type f -not -path '*/must-fail/*' -not -path '*/out/*')
header := include/namco163.h
number = $(shell sed -n 's/^\#define NAMCO163_VERSION_$(1) \([0-9]*\)$$/\1/p' $(header))
version = $(call number,MAJOR).$(call number,MINOR).$(call number,PATCH)
at := $(DESTDIR)$(PREFIX)
licences := LICENSE-MIT LICENSE-APACHE NOTICE

.PHONY: all demo test quick install uninstall clean help edges promises replays c-host compare sessions bench fmt
all: $(archive)

$(archive): $(sources)
	@scripts/archive

$(program): $(sources)
	@scripts/program

demo: $(archive)
	@scripts/demo

test:
	@scripts/test

quick:
	@scripts/test quick

install: $(archive)
	install -d "$(at)/include" "$(at)/lib/pkgconfig" "$(at)/share/doc/namco163"
	install -m 644 $(header) "$(at)/include/namco163.h"
	install -m 644 $(archive) "$(at)/lib/libnamco163.a"
	sed 's|@PREFIX@|$(abspath $(PREFIX))|; s|@VERSION@|$(version)|' namco163.pc.in > "$(at)/lib/pkgconfig/namco163.pc"
	install -m 644 $(licences) "$(at)/share/doc/namco163"

uninstall:
	rm -f "$(at)/include/namco163.h" "$(at)/lib/libnamco163.a" "$(at)/lib/pkgconfig/namco163.pc"
	rm -rf "$(at)/share/doc/namco163"

clean:
	rm -rf target oracle/target bench/host/target crates/*/out

help:
	@sed -n '2,/^$$/s/^# \{0,1\}//p' Makefile

edges:
	@scripts/edges

promises:
	@scripts/promises
	@scripts/clauses

replays: $(program)
	@scripts/replays

c-host: $(archive)
	@scripts/c-host

compare: $(program)
	@scripts/compare

sessions:
	@scripts/sessions

bench:
	@bench/run

fmt:
	@for crate in crates/*/; do (cd "$$crate" && rt fmt) || exit 1; done
