.PHONY: play test examples rows refuse-memory measure costs lanes

# Proves the player, builds it, and plays its stored scenario.
play:
	cd crates/fission_play && rt run -- play < stdin

# The gate: every proof, every must-fail edit, every test and every program.
test:
	.ci/run

# Plays each example with the player that `make play` built, and compares its report. Then what it answers to what is
# no scenario.
examples:
	for report in examples/*.report; do \
	    crates/fission_play/out/fission_play play < $${report%.report}.json | cmp - $$report || exit 1; \
	done
	tools/refusals.sh

# Makes each allocation of the stored run fail in turn, in the player that `make play` built.
refuse-memory:
	tools/refuse-memory.sh examples/muted.json examples/muted.report

# Whether each example stands word for word among the rows that the gate plays.
rows:
	for json in examples/*.json; do \
	    name=$$(basename $$json .json); \
	    row=$$(awk -v name=$$name '$$0 == "==" {on = 0} on {print} $$0 == name {on = 1}' crates/worked_rows/stdin); \
	    [ "$$row" = "$$(cat $$json; echo --; cat examples/$$name.report)" ] || exit 1; \
	done

# Processor time and memory of the player that `make play` built, as docs/ARCHITECTURE.md tells them.
measure:
	tools/measure.py crates/fission_play/out/fission_play

# Processor time and memory of trees and stores, as docs/ARCHITECTURE.md tells them.
costs:
	tools/costs.py

# Items from one thread to another, through a lane and through a channel, as docs/ARCHITECTURE.md tells them.
lanes:
	tools/lanes.py
