LIBRARY = target/staticlib/libfingerkerf.a

# make test proves every crate, tries every must-fail edit and runs every program, then runs the outside tests.
.PHONY: test
test:
	@tests/gate.sh

# make run prints what cartlist makes of document 01's image. It proves nothing.
.PHONY: run
run:
	@cd crates/cartlist && rt try < ../../samples/document

# The proved program. Where GATE is set, by tests/gate.sh, rt ci has just built it.
.PHONY: target/bin/cartlist
target/bin/cartlist:
	mkdir -p target/bin
	$(if $(GATE),,cd crates/cartlist && rt run < /dev/null)
	cp crates/cartlist/out/cartlist $@

# What is tested from outside: names in the documents, the boundary from Rust, C and Pascal, the sample images.
.PHONY: outside
outside: names golay_table needs evidence samples languages

# make names looks for each file, theorem, clause and edit that docs/PROMISES.md names.
.PHONY: names
names:
	python3 tests/names.py

# make golay_table compares the Golay code's table in the library with one made from the generator polynomial.
.PHONY: golay_table
golay_table:
	python3 tests/golay_table.py

# make samples compares what cartlist prints for each sample image with samples/EXPECTED.
.PHONY: samples
samples: target/bin/cartlist
	for f in $$(sed -n 's/:$$//p' samples/EXPECTED); do echo $$f:; target/bin/cartlist < samples/$$f; done | diff samples/EXPECTED -

# make library writes the library as other languages link it.
.PHONY: library
library: $(LIBRARY)

.PHONY: $(LIBRARY)
$(LIBRARY):
	tests/library.sh $(GATE)
	mkdir -p build

# make needs looks that the library wants memcpy and memset from outside, and nothing else.
.PHONY: needs
needs: $(LIBRARY)
	test "$$(nm -u $(LIBRARY) | awk '$$1 == "U" { print $$2 }' | sort -u | xargs)" = "memcpy memset"

RUST = rustc --edition 2021 -L native=target/staticlib -l static=fingerkerf

# make evidence compares the library, over its boundary, with a second implementation and with the sources' examples.
.PHONY: evidence
evidence: $(LIBRARY) target/bin/cartlist
	$(RUST) -C opt-level=2 -o build/differential tests/differential.rs
	$(RUST) -C opt-level=2 -o build/sources tests/sources.rs
	build/sources
	build/differential target/bin/cartlist

# make languages runs document 01's examples and document 02's from C, and prints the rows of the sample images from C, Rust and Pascal,
# those of the Golay code by its table too.
.PHONY: languages
languages: $(LIBRARY)
	gcc -std=c99 -Wall -Wextra -Werror -o build/examples bindings/c/examples.c -Ltarget/staticlib -lfingerkerf
	build/examples
	gcc -std=c99 -Wall -Wextra -Werror -o build/effort bindings/c/effort.c -Ltarget/staticlib -lfingerkerf
	tests/rows.sh build/effort samples/EFFORT
	gcc -std=c99 -Wall -Wextra -Werror -o build/golay bindings/c/golay.c -Ltarget/staticlib -lfingerkerf
	tests/rows.sh build/golay samples/EXPECTED
	$(RUST) -o build/rows_rust bindings/rust/rows.rs
	tests/rows.sh build/rows_rust samples/EXPECTED
	if command -v fpc > /dev/null; then \
	    fpc -v0 -Fubindings/pascal -Fltarget/staticlib -FEbuild -obuild/rows_pascal bindings/pascal/rows.pas && tests/rows.sh build/rows_pascal samples/EXPECTED; \
	else echo "fpc is not installed: the Pascal unit is not tried"; fi

# liquid-dsp's decoder of the Golay code is timed too where it is installed.
LIQUID = $(shell echo 'int main(void) { return 0; }' | gcc -x c - -lliquid -o /dev/null 2> /dev/null && echo --cfg liquid -l liquid)

# make bench prints, for each case, our time divided by plain Rust's; and the times of the largest images.
# build/bench --golay then prints those of the table of the Golay code alone.
.PHONY: bench
bench: $(LIBRARY) target/bin/cartlist
	$(RUST) -C opt-level=3 -C codegen-units=1 --check-cfg 'cfg(liquid)' $(LIQUID) -o build/bench bench/main.rs
	build/bench target/bin/cartlist

# The tool that lists rows read differently in a circle (docs/MIGRATION.md).
build/circular_rows: tests/circular_rows.rs
	mkdir -p build
	rustc --edition 2021 -C opt-level=2 -o $@ $<

# make expected writes what the programs worked_examples and vectors must print, by the second implementation.
.PHONY: expected
expected:
	mkdir -p build
	rustc --edition 2021 -C opt-level=2 -o build/expected tests/expected.rs
	build/expected < crates/worked_examples/stdin > crates/worked_examples/stdout
	build/expected < crates/vectors/stdin > crates/vectors/stdout
