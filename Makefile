# What there is to make. README.md says how long each takes.
#
# To use it:
#   make demo        serves the register of an example, made in out/demo, with the planners' page at
#                    http://127.0.0.1:8080/, and says which keys to try; PORT=9000 names another port. Ctrl+C ends it
#   make run         answers a script: by the proved program where it is there, else by the one that was compiled
#                    without proof, which is kept; SCRIPT=examples/chassis.script names another script
#   make install     proves and builds the program where that is still to be done, and puts it at $(PREFIX)/bin/slotplan,
#                    and slotplan-plans beside it; PROVED=no takes the program without proof, whose --version says so
#   make package     makes a folder, a .tar.gz and a .deb in out/package for a machine without a toolchain; PROVED=no too
#   make out/slotplan-plans   makes one file of the command for plans in other files, which python3 runs
#
# To change it:
#   make test        the tests, with no proof: of the program compiled without proof, and of the crates. JOBS=2 runs two
#                    steps at once, in place of as many as there are processors
#   make prove       the gate: every proof from nothing, the must-fail edits, the tests, how rows are found, and the proved
#                    program tried, as each of two compilers made it
#   make map         prints what each file of the crates, the tests, tools/, bench/ and clients/ is for;
#                    CRATES='fr_base tests ..' names some
#   make calls       prints what each public call of CRATES='fr_base ..' promises: its text, and its clauses
#   make laws        prints the laws of each crate, or of CRATES='fr_base ..', with their definitions; WORD=released
#                    prints those with that word
#   make page        makes the planners' page, crates/fr_page/src/page.rt, of its sources in page/, and out/page to look
#                    at
#   make look        draws plans into out/look, by the program that make run takes; where there is chromium it takes
#                    screenshots and counts cells, and where there is chromium-driver also of the planners' page
#   make edits       asks the prover of every wrong body, also of those that the gate leaves out; CRATES='fr_base ..' names
#                    some. For when a contract has changed
#   make try         tries the built program alone, as the gate does
#   make hostile     stops the built program at each of its calls on files, gives it files cut and changed at many places,
#                    and connections that fail at each byte; the gate does every so many of these. It needs cc
#   make refuse      refuses the built program each allocation in turn, of which the gate refuses every so many, and so to
#                    a register's calls and to the crates' tests. It needs cc, and proves and builds what it runs
#   make store       tries a register's files, its pages and edits, with the SQLite of python3; no part of the gate
#   make bench       prints the program's speed and memory beside those of a register that python3's sqlite3 keeps, and
#                    how each report and change grows with a plan, which fails where one grows too fast; no test
#   make bench-all   prints these figures, and those of instructions, migrations, imports, placements and openings

SCRIPT ?= examples/first.script
CRATES ?=
WORD ?=
PREFIX ?= /usr/local
PORT ?= 8080
PROVED ?= yes

program := crates/slotplan/out/slotplan
unproved := out/unproved/slotplan
plans := out/slotplan-plans
build_log := out/build.log
sources := -name out -prune -o \( -name '*.rt' -o -name '*.antt' -o -name crates.txt \)

.PHONY: help run run-unproved demo demo-unproved test prove edits map calls laws try look page hostile refuse store install package bench bench-all build toolchain

help:
	@sed -n '/^#/!q; s/^# \{0,1\}//p' $(firstword $(MAKEFILE_LIST))

# A program is run where no source is newer.
run:
	@if test -x $(program) && test -z "$$(find crates crates.txt $(sources) -newer $(program) -print)"; then \
	  $(program) run < $(SCRIPT); \
	else $(MAKE) --no-print-directory -s run-unproved; fi

run-unproved: $(unproved)
	@echo "make: this is $(unproved), which was compiled without proof; make install proves the program" >&2
	@$(unproved) run < $(SCRIPT)

demo:
	@if test -x $(program) && test -z "$$(find crates crates.txt $(sources) -newer $(program) -print)"; then \
	  python3 -m examples.demo $(program) $(PORT); \
	else $(MAKE) --no-print-directory -s demo-unproved; fi

demo-unproved: $(unproved)
	@python3 -m examples.demo $(unproved) $(PORT)

# The files below src/ are all that is compiled without proof.
$(unproved): tools/unproved.py tools/modules.py $(shell find crates -name out -prune -o -name '*.rt' -print) crates.txt | toolchain
	@echo "make: compiling without proof: some minutes" >&2
	@python3 tools/unproved.py $@

test: toolchain
	@python3 -m tools.quick

prove: toolchain
	@python3 -m tools.gate

edits: toolchain
	@python3 -m tools.edits $(CRATES)

map:
	@python3 -m tools.heads $(CRATES)

calls:
	@python3 -m tools.calls $(CRATES)

laws:
	@python3 -m tools.laws --word='$(WORD)' $(CRATES)

try: build
	@SLOTPLAN=$(program) python3 -m tests.runner.run

# By the program that make run takes.
look:
	@if test -x $(program) && test -z "$$(find crates crates.txt $(sources) -newer $(program) -print)"; then \
	  SLOTPLAN=$(program) python3 -m tools.look; \
	else $(MAKE) --no-print-directory -s look-unproved; fi

.PHONY: look-unproved
look-unproved: $(unproved)
	@echo "make: this is $(unproved), which was compiled without proof; make install proves the program" >&2
	@SLOTPLAN=$(unproved) python3 -m tools.look

page:
	@python3 page/build.py

hostile: build
	@WHOLE=yes SLOTPLAN=$(program) python3 -m tests.runner.run tests.test_stops tests.test_crowds tests.test_foreign tests.test_links

refuse: build out/programs/refuse_store
	@for crate in fr_tests fr_tests_registers fr_tests_program; do (cd crates/$$crate && rt test) || exit 1; done
	@WHOLE=yes SLOTPLAN=$(program) python3 -m tests.runner.run tests.test_refused tests.outside.test_store_refused tests.outside.test_crates_refused

# Programs in Rattle that try or measure the crates.
out/programs/%: tests/programs/%.rt.txt tests/drivers/rattle.py $(shell find crates $(sources) -print) | toolchain
	@echo "make: proving and building $@: minutes, and more where crates are still to be proved" >&2
	@python3 -m tests.drivers.rattle $*

store: out/programs/store_files out/programs/store_pages
	@python3 -m tests.runner.run tests.outside.test_store_files tests.outside.test_store_pages tests.outside.test_foreign_rows

$(plans): clients/archive.py $(shell find clients/slotplan_plans -name '*.py')
	@python3 -m clients.archive $@

ifeq ($(PROVED),yes)
built := $(program)
install package: build
else ifeq ($(PROVED),no)
built := $(unproved)
install package: $(unproved)
else
$(error PROVED is yes or no)
endif

install: $(plans)
	install -D -m 755 $(built) $(DESTDIR)$(PREFIX)/bin/slotplan
	install -D -m 755 $(plans) $(DESTDIR)$(PREFIX)/bin/slotplan-plans

package: $(plans)
	@python3 -m tools.package $(built) $(plans) out/package

bench: build
	@python3 bench/run.py
	@python3 bench/turns.py
	@python3 bench/reports.py
	@python3 bench/texts.py
	@python3 bench/serve.py
	@python3 bench/growth.py

bench-all: bench $(addprefix out/programs/,measure_store measure_decisions measure_imports store_pages)
	@python3 bench/profile.py
	@python3 bench/migrating.py
	@python3 bench/imports.py
	@python3 bench/decisions.py
	@python3 bench/store.py
	@python3 bench/opening.py
	@python3 bench/levels.py

# `rt run` proves what has changed, compiles it, and runs the program once on its stored script. What
# it says goes to a file, so that `make run` prints the answers alone.
build: toolchain
	@mkdir -p out
	@test -x $(program) || echo "proving and building $(program): minutes, the first time" >&2
	@(cd crates/slotplan && rt run -- run < stdin) > $(build_log) 2>&1 \
	  || { tail -n 40 $(build_log) >&2; echo "make: the program was not built; $(build_log) says why" >&2; exit 1; }

toolchain:
	@command -v rt > /dev/null || { \
	  echo "make: there is no command rt on PATH. It is that of the Rattle kit: add the kit's folder bin to PATH." >&2; exit 1; }
