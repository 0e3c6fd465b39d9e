# make alone says what there is.
SHELL = /bin/bash
.SHELLFLAGS = -o pipefail -ec
READINGS = crates/readings/out/readings
WORDS = 18446744073709551612 4 0 18446744073709551606 9223372036854775808
.PHONY: help run readings example test bench

help:
	@echo 'make run       proves what the program needs, a line for each crate, and shows its table of scenarios'
	@echo 'make readings  proves and builds the program that prints words as readings, and shows a few'
	@echo 'make example   builds the C example over include/rukwetid.h, and runs it'
	@echo 'make test      the gate: every proof, must-fail edit and program; its last line is "N passed, 0 failed"'
	@echo 'make bench     times beside a twin in Rust, libpmemobj, LMDB and SQLite'

run:
	@cd crates/scenarios && rt check | grep --line-buffered '^rt: '
	@cd crates/scenarios && rt run 2> /dev/null < stdin

readings:
	@cd crates/readings && rt check | grep --line-buffered '^rt: '
	@cd crates/readings && rt run 2> /dev/null < /dev/null
	@echo '$(READINGS) < FILE prints the reading of each word in FILE, one decimal number to a line. A few:'
	@paste <(printf '%s\n' $(WORDS)) <(printf '%s\n' $(WORDS) | $(READINGS))

example:
	@cd crates/exports && rt lib | grep --line-buffered '^rt: '
	@mkdir -p target
	@cc -std=c99 -Wall -Wextra -Werror -Iinclude -o target/reading examples/reading.c crates/exports/out/libexports.a
	@target/reading

test:
	@.ci/run

bench:
	@bench/run
