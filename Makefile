.PHONY: test run bench fuzz

# Every judge of the repository; the last line is 'N passed, M failed'.
test:
	@sh tests/all

# A script file on each engine; sample A where none is named.
run: export SCRIPT ?=
run:
	@crates/program_run/run "$$SCRIPT"

# The proved library beside the reference's fast implementation: one table of times.
bench:
	@bench/run

# The C interface against the reference on bytes that a fuzzer finds.
SECONDS = 60
fuzz:
	@fuzz/run $(SECONDS)
