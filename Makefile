# run: the product's main job. test: every test and every proof; its last line is 'N passed, 0 failed'.
.PHONY: run test reference

run:
	scripts/set-up
	scripts/build
	scripts/tour
	@echo "By hand: scripts/console < FILE, or scripts/console and lines as above; a line that is refused answers 'bad', and the end of the input ends it."

test: reference
	cd reference && cargo test --release --offline --quiet
	reference/target/release/reference --cases
	scripts/differential
	scripts/gate

# the independent second program
reference:
	scripts/set-up
	cd reference && cargo build --release --offline --quiet

# what a request costs, by table size and fill (not a test)
.PHONY: benchmark
benchmark: reference
	scripts/build
	reference/target/release/reference --benchmark scripts/console
