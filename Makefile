# The two commands: `make run` shows the main job on a shipped example, `make test` is the gate.
.PHONY: run test bench view setup

# what the commands need beside the Rattle toolchain, from the distribution's packages
setup:
	@scripts/setup

run: setup
	@scripts/run

# The gate: proves every crate, tries every must-fail edit, runs the tests and each program. Its last line is 'N passed, 0 failed'.
test: setup
	@scripts/check-docs
	@scripts/compare
	@scripts/faces
	@scripts/run --test
	@scripts/view --test
	@scripts/gate

# every measured table: speed as ratios in one run, page transfers
bench: setup
	@scripts/bench

# an image level by level, after each call of the proved library: the page's listing, or SCRIPT=file, WORDS=file; SVG=file draws the last one
view: setup
	@scripts/view $(if $(WORDS),--words '$(WORDS)') $(if $(SVG),--svg '$(SVG)') $(if $(SCRIPT),'$(SCRIPT)')
