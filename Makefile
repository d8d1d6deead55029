# make               proves what changed, builds the program and leaves it at bin/flutejoin
# make test          the whole gate: every proof from nothing, the wrong bodies, the tests, the
#                    trials, the program, the tools, the sessions of README, of docs/OPERATING.md,
#                    the man pages and the tutorial, the completion, the longest journal, and memory
#                    refused in turn
# make wrong-bodies  all wrong bodies: also those of functions that no other crate can call, and
#                    second ones of a function
# make try           runs a first session, from the datagrams of two stations to the file, with the
#                    program as it stands and nothing proved, in a minute or two
# make example       runs a small session: a file sent, received at three stations, joined and
#                    written
# make install       copies the program to $(PREFIX)/bin, and the tools of the network and of
#                    pictures beside it; man pages, the completion for bash and the examples of the
#                    tutorial and of many stations to $(PREFIX)/share; and the units of a station
#                    and of a centre
# make uninstall     takes away what `make install` copies
# make deb           makes bin/flutejoin_VERSION_ARCHITECTURE.deb of it, for Debian
# make library       proves and builds the library for C and Python, at bin/library
# make install-library  copies it, its header and its file for pkg-config to $(PREFIX);
#                    `make uninstall-library` takes them away
# make deb-library   makes libflutejoin0 and python3-flutejoin of it at bin, for Debian
# make test-library  builds it, and compares it and the package for Python with the program
# make soak          runs stations, and the month of a centre, for longer than the gate does
# make fuzz          gives the parsers of the tools inputs that are made up, for SECONDS (600), by
#                    SEED (1); what one at fault is given is left here
# make scale         runs what docs/SCALE.md has for several machines, where its engines are here
#
# PROGRAM=PATH       a program that is built already, in the place of bin/flutejoin
# LIBRARY=PATH       where the library is, or will be: a folder, in the place of bin/library

PREFIX ?= /usr/local
PROGRAM ?= bin/flutejoin
LIBRARY ?= bin/library
# They find the package of their modules beside themselves, so bin has links to them.
TOOLS := flutejoin-capture flutejoin-centre flutejoin-files flutejoin-gather flutejoin-map \
	flutejoin-mend flutejoin-receive flutejoin-repair flutejoin-station flutejoin-values
MODULES := $(patsubst tools/%,%,$(wildcard tools/flutejoin_tools/*.py \
	tools/flutejoin_tools/*/*.py))

# What `rt ci` leaves
BUILT := crates/flutejoin_cli/out/flutejoin_cli
# What `rt lib` leaves
STATIC := crates/flutejoin_c/out/libflutejoin_c.a

BIN = $(DESTDIR)$(PREFIX)/bin
LIB = $(DESTDIR)$(PREFIX)/lib/flutejoin
MAN = $(DESTDIR)$(PREFIX)/share/man/man1
COMPLETIONS = $(DESTDIR)$(PREFIX)/share/bash-completion/completions
EXAMPLES = $(DESTDIR)$(PREFIX)/share/flutejoin/examples
SCRIPTS := $(addprefix examples/,tree_steps.sh stations.py levels.sh push.sh reduce.sh slurm.sh \
	join_on_dask.py)
UNITS = $(DESTDIR)$(PREFIX)/lib/systemd/system
STARTED := flutejoin-station@.service flutejoin-centre.service

INSTALLED := libflutejoin.a libflutejoin.so libflutejoin.so.0

SOURCES := crates.txt $(shell find crates -name out -prune -o -name README.md -o -type f -print)

bin/flutejoin: $(SOURCES)
	@tools/dev/build.sh

test test-program test-tools test-stations test-exports: export FLUTEJOIN = $(abspath $(BUILT))
# `rt ci` proves one crate above another, so a processor is often free: it runs the trials, and tries
# the wrong bodies of the crates whose libraries are built by then; also while the tests run, which
# often wait. The last lines say what each folder of tests told, and then what these did.
test:
	rm -rf crates/*/out/rlib
	trap 'trap - TERM; kill 0' INT TERM; \
	told=$$(mktemp -d) && export TOLD="$$told/tests" && : > "$$TOLD" || exit 1; \
	rt ci & proofs=$$!; \
	{ nice -n 10 tests/trials.sh && nice -n 10 tools/dev/wrong_bodies.py --while $$proofs; } \
		> "$$told/others" 2>&1 & \
	others=$$!; \
	wait $$proofs && $(MAKE) --no-print-directory --jobs=2 --output-sync=line \
		test-program test-tools test-stations test-exports; tests=$$?; \
	wait $$others; others=$$?; \
	cat "$$TOLD"; grep -v ': refused: ' "$$told/others"; rm -r "$$told"; \
	[ $$others = 0 ] && exit $$tests

# The built program, and the pages that show it
test-program:
	tests/run program
	tests/run outputs
	tests/run calls
	tests/run scale
	tests/run memory
	tests/run pages

# The tools, what they are installed as, and the repository itself
test-tools:
	tests/run house
	tests/run capture
	tests/run tools
	tests/run files
	tests/run map
	tests/run repair

# What receives, and stations; their tests mostly wait
test-stations:
	tests/run receive
	tests/run station
	tests/run centre
	tests/run asked
	tests/run examples

# The library for C and the package for Python, over the libraries that `rt ci` has just left
test-exports:
	tools/dev/static_library.py "$(STATIC)"
	STATIC="$(abspath $(STATIC))" library/build.sh bin/library
	STATIC="$(abspath $(STATIC))" tests/run library

wrong-bodies:
	tools/dev/wrong_bodies.py --all

soak: $(PROGRAM)
	SOAK=10 FLUTEJOIN="$(abspath $(PROGRAM))" tests/run station
	WINDOWS=700 FILES=40 FLUTEJOIN="$(abspath $(PROGRAM))" tests/run centre Month

fuzz:
	python3 -m tests.tools.fuzz --seconds "$(or $(SECONDS),600)" --seed "$(or $(SEED),1)"

scale: $(PROGRAM)
	tests/scale/scale.sh "$(PROGRAM)"

try:
	@examples/try.sh

example: bin/flutejoin
	@examples/session.sh bin/flutejoin

install: $(PROGRAM)
	install -d "$(BIN)" "$(LIB)" "$(MAN)" "$(COMPLETIONS)" "$(EXAMPLES)" "$(UNITS)"
	install -m 755 "$(PROGRAM)" "$(BIN)/flutejoin"
	for module in $(MODULES); do \
		install -D -m 644 "tools/$$module" "$(LIB)/$$module" || exit 1; \
	done
	for tool in $(TOOLS); do \
		install -m 755 "tools/$$tool" "$(LIB)/$$tool" && \
		ln -sf "../lib/flutejoin/$$tool" "$(BIN)/$$tool" && \
		ln -sf flutejoin "$(COMPLETIONS)/$$tool" || exit 1; \
	done
	install -m 644 man/*.1 "$(MAN)"
	install -m 644 completions/flutejoin.bash "$(COMPLETIONS)/flutejoin"
	install -m 644 examples/captures.py examples/fdt.py examples/tree.mk examples/datagram_files.py \
		"$(EXAMPLES)"
	install -m 644 packaging/example.toml "$(EXAMPLES)"
	install -m 755 $(SCRIPTS) "$(EXAMPLES)"
	install -m 644 packaging/centre.toml "$(EXAMPLES)"
	for unit in $(STARTED); do \
		sed 's|/usr/bin/|$(PREFIX)/bin/|' "packaging/$$unit" > "$(UNITS)/$$unit" && \
		chmod 644 "$(UNITS)/$$unit" || exit 1; \
	done

uninstall:
	rm -f "$(BIN)/flutejoin" $(TOOLS:%="$(BIN)/%")
	rm -f "$(COMPLETIONS)/flutejoin" $(TOOLS:%="$(COMPLETIONS)/%")
	rm -f $(patsubst man/%,"$(MAN)/%",$(wildcard man/*.1)) $(STARTED:%="$(UNITS)/%")
	rm -rf "$(LIB)" "$(DESTDIR)$(PREFIX)/share/flutejoin"

library:
	@env -u STATIC library/build.sh "$(LIBRARY)"

test-library: $(PROGRAM) library
	FLUTEJOIN="$(abspath $(PROGRAM))" STATIC="$(abspath $(STATIC))" tests/run library

install-library: library
	install -d "$(DESTDIR)$(PREFIX)/lib/pkgconfig" "$(DESTDIR)$(PREFIX)/include"
	install -m 644 "$(LIBRARY)/libflutejoin.a" "$(LIBRARY)/libflutejoin.so.0" \
		"$(DESTDIR)$(PREFIX)/lib"
	ln -sf libflutejoin.so.0 "$(DESTDIR)$(PREFIX)/lib/libflutejoin.so"
	install -m 644 include/flutejoin.h "$(DESTDIR)$(PREFIX)/include"
	sed 's|^prefix=.*|prefix=$(PREFIX)|' "$(LIBRARY)/flutejoin.pc" \
		> "$(DESTDIR)$(PREFIX)/lib/pkgconfig/flutejoin.pc"
	chmod 644 "$(DESTDIR)$(PREFIX)/lib/pkgconfig/flutejoin.pc"

uninstall-library:
	rm -f "$(DESTDIR)$(PREFIX)/lib/pkgconfig/flutejoin.pc"
	rm -f "$(DESTDIR)$(PREFIX)/include/flutejoin.h"
	rm -f $(INSTALLED:%="$(DESTDIR)$(PREFIX)/lib/%")

deb: $(PROGRAM)
	packaging/deb.sh "$(PROGRAM)" bin

deb-library: library
	packaging/deb_library.sh "$(LIBRARY)" bin

clean:
	rm -rf bin crates/*/out

.PHONY: test test-program test-tools test-stations test-exports wrong-bodies soak fuzz scale try \
	example install uninstall library install-library uninstall-library test-library deb \
	deb-library clean
