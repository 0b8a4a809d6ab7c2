# Two commands: `make run` restores the example job (`make run JOB=FILE` another), `make test` passes the tests. `make values` shows document 01's
# values as the definitions give them, `make bench` measures the library beside the reference.
.PHONY: run values test bench

run:
	@tools/job $(JOB)

values:
	@tools/values

test:
	@.ci/run

bench:
	@tools/host bench
