# make run    proves and builds lineage, and runs it on a collection (COLLECTION=FILE for one of your own)
# make test   the whole gate: proofs, must-fail edits, programs and tests

COLLECTION = crates/lineage/stdin

run:
	@cd crates/lineage && rt run < $(abspath $(COLLECTION))

test:
	@tools/gate

.PHONY: run test
