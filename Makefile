# make digits P=1000000   the digits of pi from position P on; KEEP=FILE keeps the ledger, written before it is closed;
#                         HALVES=1 works each ticket by two processes, a half by each; CHECK=1 works a check run as well,
#                         by the older formula, and compares the digits, its ledger being kept in FILE.check
# make rows LEDGER=FILE   each row's sum in a kept ledger beside that of its tickets worked anew; ROWS="0 3" for some
# make test               the gate: proofs and tests, as .ci/run has them
# make check              the tests in C alone; SEED= and COUNT= for other random cases, JOBS= tests at a time
# make built              what check runs, built; -j for several at a time
# make bench              times, beside C that works one term at a time and C that works several side by side
# make published          Table 4 of document 001 at 10^7 and 10^8, by both formulas
# make published-long     the same at 10^9 to 10^11, in hours; LONG= for other positions, PROCESSES= at a time, CHECK=1 for
#                         check runs in place of Bellard's
# make install            header, proved library, pkg-config file, FORMATS.md, CHANGELOG.md: below PREFIX=/usr/local, an
#                         absolute path; DESTDIR=
# make uninstall          removes what install put there
# make standin            the stand-in for the engine, in C: ENGINE=build/standin/libengine.a takes its place in any of
#                         these but install
# make vectors            tests/vectors.txt, written again by tools/vectors.py
# make clean              removes what was built, and what rt keeps of proofs; finished tickets of published-long stay
# make help               this list

CC = gcc
CXX = g++
PREFIX = /usr/local
P = 1000000
KEEP =
HALVES =
CHECK =
LEDGER =
ROWS =
SEED = 1
COUNT = 3000
LONG = 1000000000 10000000000 100000000000
PROCESSES =

# The calls of the engine: those that Bellard's runs and check runs have alike, those of Bellard's runs alone, and those for
# digits, which are of no formula. test_CALL tests one, and test_check_CALL the one of check runs.
CALLS = work work_lower work_upper quote quote_lower quote_upper open post sheet_write sheet_read sheet_post close
BELLARD_CALLS = look book_post book_sheet_post book_withdraw standing_sheet
DIGIT_CALLS = overlap overlap_part
SYMBOLS = $(CALLS:%=bbp_%) $(BELLARD_CALLS:%=bbp_%) $(DIGIT_CALLS:%=bbp_%) $(CALLS:%=bbp_check_%)

# A text as one word of the shell, whatever is in it but a newline.
quoted = '$(subst ','\'',$(1))'

# Not for a command line to change: install goes by it.
override PROVED = crates/engine/out/libengine.a
STANDIN = build/standin/libengine.a
ENGINE = $(PROVED)
CLOSER = crates/closer/out/closer
# Programs linked with the one are kept apart from those linked with the other.
OUT = build/$(if $(filter $(PROVED),$(ENGINE)),engine,standin)

WARN = -std=c99 -Wall -Wextra -Wpedantic -Werror
INCLUDE = -Iinclude -Itests -Iexamples
CFLAGS = -O2
LDFLAGS =
TEST_FLAGS = $(WARN) -pthread -D_GNU_SOURCE $(INCLUDE) -O1 -g -fsanitize=address,undefined -fno-sanitize-recover=all
PLAIN_FLAGS = $(WARN) -pthread -D_GNU_SOURCE $(INCLUDE) -O1
PROGRAM_FLAGS = $(WARN) $(INCLUDE) $(CFLAGS)

# Tests that are built for each kind of runs, and all tests.
OF_A_KIND = $(CALLS) refusals tickets halves list
TESTS = $(OF_A_KIND) $(BELLARD_CALLS) $(DIGIT_CALLS) $(OF_A_KIND:%=check_%) kinds histories

# What a test is linked with: of its kind, and of both.
SUPPORT = common plain entries sheets postings books vectors working quoting overlapping
REFERENCE = reference reference_close reference_quote reference_overlap reference_book
HEADERS = $(wildcard include/*.h tests/*.h examples/*.h bench/*.h)

# The stand-in keeps the number of the way in which it is wrong, and has no closing program.
OF_PROVED = $(if $(filter $(PROVED),$(ENGINE)),$(1))
COMMANDS = 'bash tests/header.sh build' 'bash tests/exports.sh crates include/bbp.h $(SYMBOLS)' \
	'build/test_reference' 'build/test_check_reference' \
	'bash tests/mutants/run.sh build/mutants $(TESTS)' \
	'bash tests/mutants/libraries.sh build/mutants $(STANDIN) $(SYMBOLS)' 'bash tests/symbols.sh $(ENGINE) $(SYMBOLS)' \
	'bash tests/branches.sh $(ENGINE) $(call OF_PROVED,3 24)' 'bash tests/sources.sh crates' \
	'bash tests/names.sh docs/TRACE.md docs/ARCHITECTURE.md' 'bash tests/lines.sh crates' \
	$(foreach t,$(TESTS),'$(OUT)/test_$(t) $(SEED) $(COUNT)') \
	'bash tests/examples.sh $(OUT)/minimal $(OUT)/withdrawal $(OUT)/handover $(OUT)/acceptance' \
	'$(OUT)/published 1000000' '$(OUT)/published overlap 1000000' \
	'bash tests/farm.sh $(OUT)/farm $(OUT)/farm-test' 'bash tests/install.sh $(CURDIR)/$(OUT)/install' \
	$(call OF_PROVED,'bash tests/state.sh $(ENGINE)' 'bash tests/closer.sh $(CLOSER)')
BUILT = build/test_reference build/test_check_reference $(TESTS:%=build/mutants/test_%) $(TESTS:%=$(OUT)/test_%) \
	$(addprefix $(OUT)/,minimal withdrawal handover acceptance published farm) $(call OF_PROVED,$(CLOSER))

.PHONY: digits rows test check built bench published published-long install uninstall standin vectors clean help

digits: $(OUT)/acceptance
	@$(OUT)/acceptance $(if $(CHECK),--check) $(if $(HALVES),--halves) $(if $(KEEP),--keep $(call quoted,$(KEEP))) $(P)

rows: $(OUT)/acceptance
	@$(OUT)/acceptance --rows $(if $(LEDGER),$(call quoted,$(LEDGER))) $(ROWS)

test:
	bash .ci/run

built: $(BUILT)

check: built
	@CC="$(CC)" CXX="$(CXX)" ENGINE="$(ENGINE)" LDFLAGS="$(LDFLAGS)" bash tests/run.sh $(COMMANDS)

bench: $(OUT)/bench
	$(OUT)/bench

published: $(OUT)/published
	$(OUT)/published 10000000 100000000

# Finished tickets are kept under the checksum of the library that worked them; `clean` leaves them.
published-long: $(OUT)/farm $(OUT)/published
	@kept=published/$$(sha256sum $(ENGINE) | cut -c1-16); mkdir -p $$kept; \
	for p in $(LONG); do \
		closing=$$kept/$$p$(if $(CHECK),.check).closing; \
		$(OUT)/farm $(if $(CHECK),--check) $$p 256 $$kept/$$p $(PROCESSES) >$$closing && cat $$closing && \
		$(OUT)/published - <$$closing || exit 1; \
	done

# What is installed: a file of the tree, then its place below PREFIX.
DOCS = share/doc/bbp
INSTALLED = include/bbp.h=include/bbp.h $(PROVED)=lib/libbbp.a build/bbp.pc=lib/pkgconfig/bbp.pc \
	docs/FORMATS.md=$(DOCS)/FORMATS.md CHANGELOG.md=$(DOCS)/CHANGELOG.md
PLACE = $(call quoted,$(DESTDIR)$(PREFIX))
VERSION = $(shell sed -n 's/^\#define BBP_VERSION_\(MAJOR\|MINOR\|PATCH\) //p' include/bbp.h | paste -sd.)

# What cannot be a place is refused before anything is done. The x is for a PREFIX with a space in front.
define newline


endef
ifneq ($(filter install uninstall,$(MAKECMDGOALS)),)
ifeq ($(filter x/%,$(firstword x$(PREFIX))),)
$(error PREFIX is not an absolute path: $(PREFIX))
endif
ifneq ($(findstring $(newline),$(DESTDIR)$(PREFIX)),)
$(error a newline in PREFIX or DESTDIR)
endif
endif

# The prefix is a line of its own, since any character of it could be one of a sed script. pkg-config takes what is behind a
# backslash as it is.
install: $(ENGINE)
	@[ '$(ENGINE)' = '$(PROVED)' ] || { echo 'install: $(ENGINE) is not the proved library' >&2; exit 1; }
	@mkdir -p build
	{ printf '%s\n' $(call quoted,prefix=$(PREFIX)) | sed 's/[[:space:]"'\''#\]/\\&/g'; \
	sed 's/@VERSION@/$(VERSION)/' bbp.pc.in; } >build/bbp.pc
	set -e; $(foreach file,$(INSTALLED),install -D -m 644 -- $(subst =, $(PLACE)/,$(file));)

uninstall:
	rm -f -- $(foreach file,$(INSTALLED),$(PLACE)/$(lastword $(subst =, ,$(file))))
	[ ! -d $(PLACE)/$(DOCS) ] || rmdir --ignore-fail-on-non-empty -- $(PLACE)/$(DOCS)

help:
	@sed -n '/^#/!q; s/^# //p' $(firstword $(MAKEFILE_LIST))

vectors:
	python3 tools/vectors.py >tests/vectors.txt

clean:
	rm -rf build crates/*/out

# The engine and the closing program: proved, then written. In out/ are copies of sources, which are none of ours. A program that is up
# to date rt leaves as it stands.
SOURCES = crates.txt $(shell find crates -name out -prune -o \( -name '*.rt' -o -name '*.antt' \) -print)

$(PROVED): $(SOURCES)
	cd crates/engine && rt lib

$(CLOSER): $(SOURCES)
	cd crates/closer && rt run <stdin >/dev/null
	touch $@

standin: $(STANDIN)
$(STANDIN): build/plain/engine.o
	@mkdir -p $(@D)
	rm -f $@
	ar rcs $@ $<

# Objects of the tests with the sanitizers, and without them for the wrong engines; check_ is for check runs.
build/sanitized/%.o: tests/%.c $(HEADERS)
	@mkdir -p $(@D)
	$(CC) $(TEST_FLAGS) -c $< -o $@

build/sanitized/check_%.o: tests/%.c $(HEADERS)
	@mkdir -p $(@D)
	$(CC) $(TEST_FLAGS) -DCHECK_RUN -c $< -o $@

build/plain/%.o: tests/%.c $(HEADERS)
	@mkdir -p $(@D)
	$(CC) $(PLAIN_FLAGS) -c $< -o $@

build/plain/check_%.o: tests/%.c $(HEADERS)
	@mkdir -p $(@D)
	$(CC) $(PLAIN_FLAGS) -DCHECK_RUN -c $< -o $@

build/plain/engine.o: tests/mutants/engine.c $(HEADERS)
	@mkdir -p $(@D)
	$(CC) $(PLAIN_FLAGS) -O2 -c $< -o $@

# OBJECTS of a folder and a kind.
OBJECTS = $(patsubst %,$(1)/$(2)%.o,$(SUPPORT)) $(REFERENCE:%=$(1)/%.o)

build/test_reference: build/sanitized/test_reference.o $(call OBJECTS,build/sanitized)
	$(CC) $(TEST_FLAGS) $^ $(LDFLAGS) -o $@

build/test_check_reference: build/sanitized/check_test_reference.o $(call OBJECTS,build/sanitized,check_)
	$(CC) $(TEST_FLAGS) $^ $(LDFLAGS) -o $@

$(OUT)/test_%: build/sanitized/test_%.o $(call OBJECTS,build/sanitized) $(ENGINE)
	@mkdir -p $(@D)
	$(CC) $(TEST_FLAGS) $^ $(LDFLAGS) -o $@

$(OUT)/test_check_%: build/sanitized/check_test_%.o $(call OBJECTS,build/sanitized,check_) $(ENGINE)
	@mkdir -p $(@D)
	$(CC) $(TEST_FLAGS) $^ $(LDFLAGS) -o $@

build/mutants/test_%: build/plain/test_%.o $(call OBJECTS,build/plain) $(STANDIN)
	@mkdir -p $(@D)
	$(CC) $(PLAIN_FLAGS) $^ -o $@

build/mutants/test_check_%: build/plain/check_test_%.o $(call OBJECTS,build/plain,check_) $(STANDIN)
	@mkdir -p $(@D)
	$(CC) $(PLAIN_FLAGS) $^ -o $@

# Programs.
$(OUT)/minimal $(OUT)/withdrawal $(OUT)/handover $(OUT)/acceptance: $(OUT)/%: examples/%.c $(HEADERS) $(ENGINE)
	@mkdir -p $(@D)
	$(CC) $(PROGRAM_FLAGS) $< $(ENGINE) $(LDFLAGS) -o $@

$(OUT)/farm: tools/farm.c $(HEADERS) $(ENGINE)
	@mkdir -p $(@D)
	$(CC) $(PROGRAM_FLAGS) $< $(ENGINE) $(LDFLAGS) -o $@

$(OUT)/published: tests/published.c $(HEADERS) $(ENGINE)
	@mkdir -p $(@D)
	$(CC) $(PROGRAM_FLAGS) $< $(ENGINE) $(LDFLAGS) -o $@

# The C that works terms side by side: an object for each compiler that is there and each number of lanes, and the tuned
# form with eight. The redirection is for make, which would otherwise look for a program of the name `command`.
COMPILERS := $(foreach compiler,gcc clang,$(if $(shell command -v $(compiler) 2>/dev/null),$(compiler)))
SIDE_BY_SIDE = $(foreach compiler,$(COMPILERS),$(patsubst %,build/bench/$(compiler)-%.o,4 6 8 tuned))
# The compiler's call for an object COMPILER-WAY.o, with its number of lanes and the names of its functions.
LANED = $(firstword $(subst -, ,$(1))) $(WARN) -O3 -DLANES=$(2) -DWORK=$(subst -,_,$(1))_work \
	-DCHECK_WORK=$(subst -,_,$(1))_check_work -DVERSION=$(subst -,_,$(1))_version -c $< -o $@

build/bench/%-tuned.o: bench/tuned.c bench/lanes.c $(HEADERS)
	@mkdir -p $(@D)
	$(call LANED,$*-tuned,8)

build/bench/%.o: bench/lanes.c $(HEADERS)
	@mkdir -p $(@D)
	$(call LANED,$*,$(lastword $(subst -, ,$*)))

$(OUT)/bench: bench/bench.c bench/plain.c $(SIDE_BY_SIDE) $(HEADERS) $(ENGINE)
	@mkdir -p $(@D)
	$(CC) $(WARN) -pthread $(INCLUDE) -O3 $(COMPILERS:%=-DWITH_%) bench/bench.c bench/plain.c $(SIDE_BY_SIDE) $(ENGINE) \
		$(LDFLAGS) -o $@

.PRECIOUS: build/sanitized/%.o build/sanitized/check_%.o build/plain/%.o build/plain/check_%.o
