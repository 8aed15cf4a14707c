SHELL := /bin/bash
.SHELLFLAGS := -eu -o pipefail -c

program := crates/onvm_main/out/onvm_main
functions := crates/nf_bench/out/nf_bench
windows := crates/window_bench/out/window_bench
board := crates/board_bench/out/board_bench
flows := crates/flow_bench/out/flow_bench
passes := crates/pass_bench/out/pass_bench
sessions := crates/session_bench/out/session_bench
sources := crates.txt $(shell find crates -name out -prune -o -type f '(' -name '*.rt' -o -name '*.antt' ')' -print)

# Where ONVM_PROGRAM names a program, that one is installed, and nothing is built.
PREFIX ?= /usr/local
installed := $(or $(ONVM_PROGRAM),$(program))
target := $(DESTDIR)$(PREFIX)

.PHONY: help test soak run bench build install uninstall version

help:
	@echo 'make build   proves and builds the program, where a source is newer than it'
	@echo 'make run     replays the first example, and prints the report and what was emitted'
	@echo 'make install PREFIX=..   puts program, script and manual page below that folder (/usr/local), DESTDIR'
	@echo '             before it; make uninstall PREFIX=.. takes them away'
	@echo 'make version says what was proved with which kit'
	@echo "make test    the merge gate: every proof, test and must-fail edit, then the repository's own checks"
	@echo "make soak    many runs of roles beside each other, for hours: the same bytes as with --serial, each frame"
	@echo '             accounted for under stress, and what is lost on few and on busy processors; then the worst inputs,'
	@echo '             in the time and memory that docs/LIMITS.md states'
	@echo 'make bench   the program beside other ones that copy captures, what functions cost per frame,'
	@echo '             and what windows of samples, the board, rules, passes and sessions cost; never part of a test'

# The last line adds up what passed and what failed, also where a step failed and ended the rest.
test:
	@log=$$(mktemp); \
	trap 'status=$$?; sh checks/total.sh "$$status" "$$log"; rm -f "$$log"; exit "$$status"' EXIT; \
	rt ci | tee "$$log"; \
	for check in repository examples model schema plots install captures system output growth changing whole threads; do sh checks/$$check.sh | tee -a "$$log"; done

soak: $(program)
	@sh checks/threads.sh 1000 1000
	@sh checks/losses.sh 50
	@sh checks/worst.sh

run: $(program)
	@sh checks/show.sh examples/01-one-frame

bench: $(program) $(functions) $(windows) $(board) $(flows) $(passes) $(sessions)
	@python3 bench/race.py --onvm $(program)
	@$(functions) 1000
	@$(windows) 1000
	@$(board) 400
	@$(flows) 1000
	@$(passes) 1000
	@$(sessions) 10

build: $(program)

install: $(installed)
	@install -d '$(target)/bin' '$(target)/libexec/onvm' '$(target)/share/man/man1' '$(target)/share/doc/onvm'
	@install -m 755 '$(installed)' '$(target)/libexec/onvm/onvm'
	@install -m 755 onvm '$(target)/bin/onvm'
	@install -m 644 docs/onvm.1 '$(target)/share/man/man1/onvm.1'
	@install -m 644 LICENSE docs/FORMATS.md docs/chain.schema.json '$(target)/share/doc/onvm'
	@$(MAKE) --no-print-directory -s version >'$(target)/share/doc/onvm/version'

uninstall:
	@rm -f '$(target)/bin/onvm' '$(target)/share/man/man1/onvm.1'
	@rm -rf '$(target)/libexec/onvm' '$(target)/share/doc/onvm'

version:
	@sh checks/version.sh $(program)

$(program): $(sources)
	@sh build.sh onvm_main

$(functions): $(sources)
	@sh build.sh nf_bench

$(windows): $(sources)
	@sh build.sh window_bench

$(board): $(sources)
	@sh build.sh board_bench

$(flows): $(sources)
	@sh build.sh flow_bench

$(passes): $(sources)
	@sh build.sh pass_bench

$(sessions): $(sources)
	@sh build.sh session_bench
