# `make` proves and builds the inspector's command and shows it on a sample; `make test` is the gate.
.PHONY: run list examples archive host crosscheck bench lessons command test

# The output of a proof or a compiler goes to a log, and is shown only if it fails.
quietly = @mkdir -p target; $(1) > target/make.log 2>&1 || { cat target/make.log; exit 1; }

# The command, shown on a sample: the image of a key list is built, checked and listed.
run:
	$(call quietly,bash .ci/build lxtr)
	target/bin/lxtr build samples/goods.keys target/goods.img
	target/bin/lxtr check target/goods.img
	target/bin/lxtr complete target/goods.img

# The listing program of document 01.
list:
	$(call quietly,bash .ci/build list_pairs)
	@target/bin/list_pairs < samples/goods.keys

# Document 01's examples: the script, and the answers of the compiled operations.
examples:
	$(call quietly,bash .ci/build run_examples)
	@target/bin/run_examples < crates/run_examples/stdin

# target/staticlib/liblxtr_c.a, for programs in C.
archive:
	$(call quietly,bash .ci/build lxtr_c)

host: archive
	$(call quietly,bash .ci/host)
	@cat target/host/stdout

crosscheck: archive
	$(call quietly,bash .ci/build list_pairs lxtr)
	@bash .ci/crosscheck

# Times of the C functions and of the independent implementation, on generated key lists.
bench: archive
	@cd bench && cargo run --release --offline --quiet

# The files of lessons/ made anew, and the commands of its README run.
lessons:
	$(call quietly,bash .ci/build lxtr)
	@bash .ci/lessons

# The inspector's command run on sound and bad files, and with bad arguments.
command:
	$(call quietly,bash .ci/build lxtr)
	@bash .ci/command

test:
	@bash .ci/run
