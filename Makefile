# make demo: prove and build what exists and run it on the shipped example.
# make test: the gate.
# make vectors: record the vectors anew from the Rust original's source, HORN=FOLDER.
# make bench: time the library beside the Rust original, HORN=FOLDER, and its reader and
# step check.
# make host: build the C examples, target/host/check, classes and show, over the library's
# archive.
HORN ?= ../shared/docs/src
CARGO = CARGO_TARGET_DIR=$(CURDIR)/target/tools cargo
TOOLS = target/tools/release
HOSTS = host_store host_unify host_read host_walk_c host_search

.PHONY: demo test tools oracle vectors bench proved dock host

test:
	.ci/run

tools:
	@$(CARGO) build --offline --locked --release --quiet --manifest-path tools/Cargo.toml -p certpack

oracle: tools
	@HORN_SRC=$(realpath $(HORN)) $(CARGO) build --offline --locked --release --quiet --manifest-path tools/Cargo.toml -p oracle

vectors: oracle
	$(TOOLS)/oracle vectors tests/vectors examples/nat.horn tests/cases/*.horn

proved:
	@tools/prove dock list_records

dock: proved
	@tools/archives dock

host: dock
	@mkdir -p target/host
	@for host in check classes show; do \
	    cc -std=c99 -Wall -Wextra -pedantic -O2 -Iinclude -o target/host/$$host examples/$$host.c examples/host.c target/staticlib/libdock.a || exit 1; \
	done

bench: tools dock
	@tools/prove $(HOSTS)
	@tools/archives $(HOSTS)
	@HORN_SRC=$(realpath $(HORN)) RATTLE_LIB=$(CURDIR)/target/staticlib $(CARGO) build --offline --locked --release --quiet --manifest-path tools/Cargo.toml -p bench --features original
	@$(TOOLS)/bench intern
	@$(TOOLS)/bench unify --times
	@$(TOOLS)/bench walk --times
	@$(TOOLS)/bench counts
	@$(TOOLS)/bench classes --times
	@$(TOOLS)/bench show --times
	@$(TOOLS)/bench read
	@$(TOOLS)/bench check

demo: tools host
	@echo "The worked example (examples/nat.horn) as a pack, by certpack dump:"
	@$(TOOLS)/certpack dump examples/nat.pack
	@echo
	@echo "Its records, by the proved program list_records (offset, kind, length of the body):"
	@cd crates/list_records && rt run < ../../examples/nat.pack 2> ../../target/list_records.log || { cat ../../target/list_records.log; exit 1; }
	@echo
	@echo "Verdict on its steps and goals, by the library, called from C (examples/check.c):"
	@target/host/check examples/nat.pack
	@echo
	@echo "Classes of its needed steps, by the library, called from C (examples/classes.c):"
	@target/host/classes examples/nat.pack
	@echo
	@echo "Its goal in general form, with its variable's value, by the library, called from C (examples/show.c):"
	@target/host/show examples/nat.pack
	@echo
	@echo "Its goals, proof lines and goal lines as recorded from the Rust original:"
	@$(TOOLS)/certpack recorded tests/vectors nat
