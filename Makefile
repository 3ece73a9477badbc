# What people type here. `rt` is the toolchain's command; `rt doc` prints its first page.

PROGRAM := crates/attest/out/attest

.PHONY: build demo test bench

# Proves the program, with all that it stands on, and links it. A crate's name is printed when it is proved, and nothing is
# proved twice.
build:
	@command -v rt >/dev/null || { echo "make: the toolchain's command rt isn't on the PATH" >&2; exit 1; }
	@[ -x $(PROGRAM) ] || echo "proving each crate that the program stands on: from nothing some 25 minutes on four processors"
	@cd crates/attest && { { rt run -- script <../../examples/all_lock.script 2>&1; echo "status $$?"; } | tee build.log \
		| sed -un 's/^crate \([a-z0-9_]*\): .*/  \1/p'; } && { grep -q '^status 0$$' build.log || { tail -n 20 build.log; exit 1; }; }

# A device that is attested beside two applications: by the proved program where it is built, else by the toolchain's run of the
# same sources without proof.
demo:
	@if [ -x $(PROGRAM) ]; then sh examples/demo/demo $(PROGRAM); else sh examples/demo/demo; fi

# The merge gate.
test:
	.ci/run

# Long scripts over a memory of 1 MiB, long assembler texts, long executables to list and many images to compare with: each
# is twice as long as the one before. And turns per second at one shared core, alone and by threads that contend, a device on
# threads, and checks of traces.
bench: build
	python3 bench/script.py $(PROGRAM)
	python3 bench/assembly.py $(PROGRAM)
	python3 bench/listing.py $(PROGRAM)
	python3 bench/verify.py $(PROGRAM)
	@cd crates/turn_bench && { rt run <stdin >build.log 2>&1 || { tail -n 20 build.log; exit 1; }; }
	python3 bench/turns.py crates/turn_bench/out/turn_bench
	python3 bench/sched.py $(PROGRAM) crates/turn_bench/out/turn_bench
	python3 bench/run.py $(PROGRAM) crates/turn_bench/out/turn_bench
	python3 bench/check.py $(PROGRAM) crates/turn_bench/out/turn_bench
