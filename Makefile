# The script that `make try`, `make play` and `make show` play, from the top of the repository on.
SCRIPT = examples/first-update.script

PROGRAM = crates/apexplay/out/apexplay
SOURCES = crates.txt $(shell find crates \( -name '*.rt' -o -name '*.antt' \) -not -path '*/out/*')

.PHONY: help try play show test

help:
	@echo 'make try                 plays $(SCRIPT) before anything is proved, with checks while it runs'
	@echo 'make play                proves the program, and plays the script; its text is all of standard output'
	@echo 'make show                plays it, and shows its lines beside its text'
	@echo 'make try SCRIPT=PATH, and so the others    play another script'
	@echo 'make test                the merge gate: proves, tests and plays everything'
	@echo 'tools/wrong-bodies       tries the wrong bodies that the gate does not try'

try:
	@tools/try-program '$(SCRIPT)'

# The program is proved and built first, where a source has changed.
play: $(PROGRAM)
	@$(PROGRAM) play < '$(SCRIPT)'

show:
	@tools/show '$(SCRIPT)'

$(PROGRAM): $(SOURCES)
	@tools/prove-program

test:
	@tools/check-wrong-bodies
	@tools/check-docs
	rt ci
	@tools/play-examples
