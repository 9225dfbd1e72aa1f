# make test: everything that is proved and tested; the last line is that of `rt ci`.
# The other targets but demo set our listing beside the Rust's; host/README.md says what is where.
SHELL = /bin/bash
.SHELLFLAGS = -o pipefail -c
SEED ?= 1
COUNT ?= 20000
HOST_RUN = host/with-reference cargo run --quiet --release

.PHONY: test host-test library compare bench record demo

test:
	@.ci/run

host-test:
	@host/test

# The static library, crates/kit_c/out/libkit_c.a, once all below it is proved.
library:
	@cd crates/kit_c && rt lib

# The listing of the proved library beside the Rust's on COUNT generated jobs.
compare: library
	@$(HOST_RUN) --package beside --bin compare -- kit random $(SEED) $(COUNT)

# The time of the proved library beside the Rust's, job by job; with valgrind also instructions.
bench: library
	@host/setup valgrind || echo 'no valgrind: instructions are not counted'
	@$(HOST_RUN) --package beside --bin bench

# The recorded jobs and the listings of the examples, made again with the Rust's answers.
record:
	@$(HOST_RUN) --package compare --bin record

# The listing of examples/scanning-arch.job, as the proved program prints it.
demo:
	@cd crates/kitlist && rt run < ../../examples/scanning-arch.bytes
