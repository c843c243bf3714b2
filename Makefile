.PHONY: test demo bench fmt clean

# Everything that is promised, proved from nothing where no earlier run on this machine has proved the same files. The last line is 'N passed, M failed'.
test:
	@.ci/test

# The main job: the paper's trace T, whole and reduced both ways, replayed side by side.
demo:
	@examples/programs show reduce replay
	@examples/demo.sh

# The proved library against the reference, as ratios. Not part of the tests.
bench:
	@rust/archive >/dev/null
	@cargo run --quiet --release --offline --manifest-path rust/Cargo.toml -p bench

fmt:
	@for crate in crates/*; do (cd $$crate && rt fmt) || exit 1; done

clean:
	@rm -rf target rust/target crates/*/out
