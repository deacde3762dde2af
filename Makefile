# The commands of the settlement-day book. `make help` lists them.

BUILD := build

# The crates whose functions hosts call, each by a crate NAME_c for C: one library is joined of them.
LIBRARY_CRATES := batch callers desk entries funds host journal listing snapshot statement trust
# The programs that are installed, with a man page each; and those whose words a shell completes.
PROGRAMS := target/bin/dayrun $(BUILD)/release/tape $(BUILD)/release/treasury $(BUILD)/release/daybook
COMPLETED := tape treasury daybook
# Where it is installed; DESTDIR stands before it while a package is made.
PREFIX ?= /usr/local
DESTDIR ?=

VERSION := $(shell scripts/version.sh)
ARCHIVES := $(LIBRARY_CRATES:%=target/staticlib/lib%.a)
LIBRARY := $(BUILD)/lib/libsettlement_day.a
SHARED := $(BUILD)/lib/libsettlement_day.so.$(basename $(VERSION))
HOSTS := $(BUILD)/measures $(BUILD)/day $(BUILD)/trust $(BUILD)/sizes $(BUILD)/funds $(BUILD)/markets $(BUILD)/statement $(BUILD)/stack
CFLAGS := -std=c11 -O2 -Wall -Wextra -Wpedantic -Werror
CXXFLAGS := -std=c++17 -Wall -Wextra -Wpedantic -Werror
CRATE_FILES := crates.txt $(shell find crates -name out -prune -o '(' -name '*.rt' -o -name '*.antt' ')' -print)

# The name of a tape and of a folder, as it was given: a dollar or a quote in it is a letter of the name.
unexport TAPE PREFIX DESTDIR
export DAY_TAPE := $(value TAPE)
export DAY_PREFIX := $(value PREFIX)
export DAY_DESTDIR := $(value DESTDIR)

.PHONY: help test run day libraries list hosts programs install uninstall clean

help:
	@echo 'make test            prove every crate from nothing, then run every test; the last line is the verdict'
	@echo 'make run             run the settled day P5 to P9 and show it'
	@echo 'make day TAPE=file   run a tape, in its text form or as words, and show it'
	@echo 'make libraries       build the library for hosts, as an archive and shared: build/lib/libsettlement_day.*'
	@echo 'make hosts           build the hosts in C: build/measures, build/day, build/trust, build/sizes, build/funds, build/markets, build/statement and build/stack'
	@echo 'make install         install library, header, programs and man pages: PREFIX=/usr/local DESTDIR='
	@echo 'make uninstall       remove what was installed there'
	@echo 'make clean           remove everything that was built'
	@echo 'The proved program is target/bin/dayrun, the tool for tapes build/release/tape,'
	@echo 'the treasurer'\''s command build/release/treasury, the desk'\''s console build/release/daybook.'

test:
	@scripts/test.sh

run:
	@scripts/run.sh

day:
	@scripts/day.sh "$$DAY_TAPE"

libraries: $(LIBRARY) $(SHARED)
	@:

list:
	@echo $(LIBRARY_CRATES)

hosts: $(HOSTS)
	@:

programs: libraries
	@scripts/programs.sh $(PROGRAMS)

install: programs
	@scripts/install.sh "$$DAY_DESTDIR" "$$DAY_PREFIX" $(LIBRARY) $(SHARED) '$(PROGRAMS)' '$(COMPLETED)'

uninstall:
	@scripts/uninstall.sh "$$DAY_DESTDIR" "$$DAY_PREFIX"

$(BUILD)/%: host/%.c host/settlement_day.h $(LIBRARY)
	@mkdir -p $(BUILD)
	g++ $(CXXFLAGS) -fsyntax-only -x c++ $<
	gcc $(CFLAGS) -pthread -o $@ $< $(LIBRARY)

$(LIBRARY): $(ARCHIVES) host/version.c host/settlement_day.h scripts/join.sh
	@scripts/join.sh $@ $(ARCHIVES)

$(SHARED): $(LIBRARY) scripts/share.sh
	@scripts/share.sh $@ $(LIBRARY)

target/staticlib/lib%.a: $(CRATE_FILES)
	@scripts/tools.sh rt gcc
	@scripts/library.sh $*

clean:
	rm -rf $(BUILD) target crates/*/out
