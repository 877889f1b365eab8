# make            proves and builds bin/dapnorm; PROOFS=FILE builds it over that proof pack, PROOFS= without any;
#                 KEEP=yes takes longer and keeps the work of the prover for rt check, make mutants and the next make
# make proofs     proves all of it again from scratch and writes a proof pack, bin/dapnorm.proofs
# make test       the gate and the runs around it
# make mutants    tries all wrong bodies, also those that the gate leaves out; CRATES="a b" tries those of some crates
# make try        a first look, unproved: two runs of one session normalised
# make documents  writes the parts of the documents that are generated from the code
# make bench      speed and memory; SIZE=small takes seconds, FIGURES=FOLDER also writes the figures there as JSON
# make dist       the sources of the last commit, their proof pack and two Debian packages, in dist/
# make install    puts program, man page, completions, guides, examples and the Python package under DESTDIR and PREFIX; make uninstall removes them
# make real       installs what is missing of four debuggers and Emacs (Debian), and runs their sessions ten times each; not a part of make test
# make clean      removes all that is built
# make help       lists these targets

PREFIX ?= /usr/local
PROGRAM ?= bin/dapnorm
# The proof pack to build over. An archive of the sources has one beside the Makefile, and a clone has none.
PROOFS ?= $(if $(KEEP),,$(wildcard dapnorm.proofs))
# The proof pack that make dist puts into its archive.
PACK ?= bin/dapnorm.proofs
BELOW = $(DESTDIR)$(PREFIX)
AS_PROGRAM := bin/dapnorm
AS_MANUAL := share/man/man1/dapnorm.1
AS_BASH := share/bash-completion/completions/dapnorm
AS_ZSH := share/zsh/site-functions/_dapnorm
AS_FISH := share/fish/vendor_completions.d/dapnorm.fish
# The guides and the examples keep their folders below this one, so that their links work there.
AS_SHARED := share/dapnorm
GUIDES := $(addprefix docs/,$(addsuffix .md,COMMANDS ERRORS FORMATS GLOSSARY HOWTO IDS NORMAL-FORM PROFILE RULES TUTORIAL)) docs/session.svg
EXAMPLES := examples/README.md examples/program.py examples/session.rules $(sort $(wildcard examples/rules/*.rules))
RECIPES := $(addprefix examples/,golden_test.py trace_tee.py trace_proxy.py from_debugpy_log.py from_lldb_log.py)
SHELL_RECIPES := $(addprefix examples/,golden.sh ci.sh git_setup.sh)
SHARED := $(GUIDES) $(EXAMPLES) $(RECIPES) $(SHELL_RECIPES)
# The Python package. Debian's python3 looks into this folder below /usr; for another one set PYTHONPATH, or AS_PYTHON.
AS_PYTHON := lib/python3/dist-packages
KIT := $(sort $(wildcard python/dapnorm/*.py)) python/dapnorm/py.typed
KIT_METADATA := METADATA entry_points.txt
KIT_VERSION := $(shell sed -n 's/^__version__ = "\(.*\)"$$/\1/p' python/dapnorm/__init__.py)
AS_METADATA := $(AS_PYTHON)/dapnorm-$(KIT_VERSION).dist-info
SHELL := bash
.SHELLFLAGS := -o pipefail -c

# The crates of the program, whose names begin so, and all that they are made from.
CRATES := $(filter dap%,$(shell sed -n 's/^\([a-z0-9_]*\)[ :].*/\1/p' crates.txt))
SOURCES := crates.txt $(shell find $(addprefix crates/,$(CRATES)) -type f -not -path '*/out/*' -not -path '*/must-fail/*' -not -path '*/mutants/*')

.PHONY: all help proofs test mutants try bench documents dist install uninstall real clean need-rt need-python need-commit

all: bin/dapnorm

# The head of this file.
help:
	@sed -n '/^#/!q; s/^# \{0,1\}//p' "$(firstword $(MAKEFILE_LIST))"

HAS_RT = command -v rt > /dev/null || { echo "rt, the command of the Rattle toolchain, is not found: put its folder bin on PATH"; exit 1; }
HAS_PYTHON = command -v python3 > /dev/null || { echo "python3 is not found: it runs the scripts of make"; exit 1; }

need-rt:
	@$(HAS_RT)

need-python:
	@$(HAS_PYTHON)

# make without a pack proves a program that was built over one, since need-rt is never up to date. make install takes it as it is.
# With KEEP=yes make always asks rt, which proves what it has kept no work of.
TO_PROVE := $(if $(PROOFS),,$(and $(filter all bin/dapnorm proofs dist,$(or $(MAKECMDGOALS),all)),$(KEEP)$(wildcard bin/over_pack)))

# A program that is newer than its sources needs no rt: sudo make install resets PATH.
bin/dapnorm: $(SOURCES) $(PROOFS) $(if $(TO_PROVE),need-rt)
	@$(HAS_RT)
	@$(HAS_PYTHON)
	@mkdir -p bin
ifeq ($(PROOFS),)
	@echo "Proves the $(words $(CRATES)) crates of the program and builds it: about 25 minutes from scratch on 4 processors. Prints a line for each crate."
	@python3 scripts/prove_all.py crates/dapnorm_main$(if $(KEEP), --keep)
	@cp crates/dapnorm_main/out/dapnorm_main bin/dapnorm
	@rm -f bin/over_pack
else
	@echo "Builds the program from its sources over the proof pack $(PROOFS). Prints a line for each crate."
	@echo "This proves nothing. You trust whoever made the pack that the proofs passed. To prove the program here: make PROOFS="
	@python3 scripts/proof_pack.py build crates/dapnorm_main "$(PROOFS)" bin/dapnorm
	@echo "$(PROOFS)" > bin/over_pack
endif
	@echo "bin/dapnorm is built."

bin/dapnorm.proofs: $(SOURCES) bin/dapnorm | need-rt need-python
	@echo "Proves the $(words $(CRATES)) crates of the program once more, from scratch, for a proof pack. This takes longer than make."
	@python3 scripts/proof_pack.py make crates/dapnorm_main $@ bin/dapnorm

proofs: $(PACK)

test: need-rt need-python
	@command -v git > /dev/null || { echo "git is not found: the gate asks it which files there are"; exit 1; }
	@echo "Proves every crate, tries the must-fail edits, and runs the tests: about 50 minutes on 4 cores. With rattle-kit-13f, a later run proves and tries only what changed."
	@python3 -m tests.all

# The crates that the command line names, none if it names none.
TRIED = $(if $(findstring command,$(origin CRATES)),$(CRATES))

mutants: need-rt need-python
	@echo "Tries the wrong bodies of $(or $(TRIED),all crates): one to two hours for all on 4 processors."
	@python3 scripts/mutants.py $(TRIED)

# Runs the program that make has built, if it exists.
try: need-python $(if $(wildcard $(PROGRAM)),,need-rt)
	@python3 scripts/first_look.py $(wildcard $(PROGRAM))

SIZE ?= full
MEASURE = python3 scripts/$(1).py --size "$(SIZE)" --program "$(PROGRAM)" $(if $(FIGURES),--json "$(FIGURES)/$(1).json")

# Each script writes its part of the documents. The pictures come last: they show what the others have.
GENERATORS := contracts errors architecture library benchmarks pictures

documents: need-python
	@echo "Writes the generated parts of the documents, and the contracts of each crate to docs/reference: a second."
	@for it in $(GENERATORS) profile; do python3 -m "tests.documents.$$it" write > /dev/null || exit; done

bench: need-python $(PROGRAM)
	@echo "Measures each command on generated inputs, and compares it with short Python scripts: $(if $(filter small,$(SIZE)),seconds,some minutes)."
	@$(call MEASURE,bench)
	@$(call MEASURE,costs)

# PROGRAM may name a program that is built already. The folders of completions are those that the shells look into.
install: $(PROGRAM)
	@echo "Puts the program, its man page, completions, guides, examples and Python package below $(DESTDIR)$(PREFIX): at once."
	install -D -m 755 "$(PROGRAM)" "$(BELOW)/$(AS_PROGRAM)"
	install -D -m 644 docs/dapnorm.1 "$(BELOW)/$(AS_MANUAL)"
	install -D -m 644 completions/dapnorm.bash "$(BELOW)/$(AS_BASH)"
	install -D -m 644 completions/_dapnorm "$(BELOW)/$(AS_ZSH)"
	install -D -m 644 completions/dapnorm.fish "$(BELOW)/$(AS_FISH)"
	@for it in $(filter-out $(SHELL_RECIPES),$(SHARED)); do install -D -m 644 "$$it" "$(BELOW)/$(AS_SHARED)/$$it" || exit; done
	@for it in $(SHELL_RECIPES); do install -D -m 755 "$$it" "$(BELOW)/$(AS_SHARED)/$$it" || exit; done
	@for it in $(KIT); do install -D -m 644 "$$it" "$(BELOW)/$(AS_PYTHON)/$${it#python/}" || exit; done
	@for it in $(KIT_METADATA); do install -D -m 644 "python/dapnorm.dist-info/$$it" "$(BELOW)/$(AS_METADATA)/$$it" || exit; done
	@test -n "$(DESTDIR)" || python3 -c 'import sys; sys.exit(sys.argv[1] not in sys.path)' "$(PREFIX)/$(AS_PYTHON)" 2> /dev/null \
		|| echo "python3 does not look into $(PREFIX)/$(AS_PYTHON): export PYTHONPATH=$(PREFIX)/$(AS_PYTHON), or choose another folder below PREFIX by AS_PYTHON="

uninstall:
	@echo "Removes the files that make install put below $(DESTDIR)$(PREFIX)."
	rm -f "$(BELOW)/$(AS_PROGRAM)" "$(BELOW)/$(AS_MANUAL)" "$(BELOW)/$(AS_BASH)" "$(BELOW)/$(AS_ZSH)" "$(BELOW)/$(AS_FISH)"
	@for it in $(SHARED); do rm -f "$(BELOW)/$(AS_SHARED)/$$it" || exit; done
	@for it in /examples/rules /examples /docs ""; do rmdir "$(BELOW)/$(AS_SHARED)$$it" 2> /dev/null || true; done
	@for it in $(KIT); do rm -f "$(BELOW)/$(AS_PYTHON)/$${it#python/}" || exit; done
	@for it in $(KIT_METADATA); do rm -f "$(BELOW)"/$(AS_PYTHON)/dapnorm-*.dist-info/"$$it" || exit; done
	@rm -rf "$(BELOW)/$(AS_PYTHON)/dapnorm/__pycache__"
	@for it in "$(BELOW)"/$(AS_PYTHON)/dapnorm "$(BELOW)"/$(AS_PYTHON)/dapnorm-*.dist-info; do rmdir "$$it" 2> /dev/null || true; done

# The packages are made of the last commit, so the program has to be built of it too.
need-commit:
	@git rev-parse -q --verify HEAD > /dev/null 2>&1 || { echo "git finds no commit here: the packages are made of the last one"; exit 1; }
	@git diff --quiet HEAD -- && test -z "$$(git ls-files --others --exclude-standard crates)" || { echo "the packages are made of the last commit: commit first, or set aside what has changed"; exit 1; }

dist: need-commit need-python $(PROGRAM) $(PACK)
	@echo "Packs the sources of the last commit with their proof pack, and makes the Debian packages: seconds."
	@python3 scripts/make_package.py "$(PROGRAM)" "$(PACK)" dist

real: need-python $(PROGRAM)
	@echo "Installs by apt-get what is missing of debugpy, lldb, delve, Go, Ruby, Emacs and dap-mode, and removes nothing."
	@echo "Then it runs each session ten times: about four minutes."
	@python3 tests/real/run.py --install "$(PROGRAM)"

clean:
	@echo "Removes bin, dist, docs/reference and the folder out of each crate: the next make proves every crate again."
	rm -rf bin dist docs/reference crates/*/out
