# make run: the main job. make test: the gate.
.PHONY: run test fmt

run:
	@rt all check
	@echo
	@echo "Everything is proved. What clearances see of two stores, by the proved code (crates/tour):"
	@echo
	@cd crates/tour && rt run 2>/dev/null >out/shown && sed 's/^/  /' out/shown
	@echo
	@echo "Document 01's example, tabs shown as spaces. Its six commands are the cards P1 to P6, which the proof computes"
	@echo "(crates/model/specs/Cards.antt):"
	@echo
	@sed 's/^/  in   /' examples/bench.in | tr '\t' ' '
	@echo
	@sed 's/^/  out  /' examples/bench.out | tr '\t' ' '

test:
	@.ci/run

fmt:
	@for crate in crates/*/; do (cd "$$crate" && rt fmt) || exit 1; done
