# The commands of this repository. `make test` is the gate.
.PHONY: help install uninstall test-install
.PHONY: test check fmt play lib test-c test-takeover test-rust test-readme compare soak bench
.PHONY: compare-program expect test-pages test-expected test-bench test-lockplay
.DELETE_ON_ERROR:

SOURCES := crates.txt $(shell find crates -name out -prune -o \( -name '*.rt' -o -name '*.antt' \) -print)

# The version has its one place in the file VERSION. tests/install.sh holds the header and the Rust crate to it.
VERSION := $(shell cat VERSION)
MAJOR := $(firstword $(subst ., ,$(VERSION)))

# A path that the user gives starts in this folder. Cargo runs in rust/, and a pkg-config file needs whole paths.
whole = $(if $(filter /%,$(1)),$(1),$(CURDIR)/$(1))
ifneq ($(ZAMGYORUD_LIB),)
override ZAMGYORUD_LIB := $(call whole,$(ZAMGYORUD_LIB))
export ZAMGYORUD_LIB
endif

# List these commands.
# A command's line here is the first sentence of the comment that stands above its target.
help:
	@awk '/^#/ && text == "" { text = substr($$0, 3) } \
	    /^[a-z-]+:/ && text != "" { sub(/:.*/, ""); sub(/\. .*/, ".", text); printf "make %-14s %s\n", $$0, text } \
	    /^[a-z-]+:/ || /^$$/ { text = "" }' $(firstword $(MAKEFILE_LIST))

# Prove every crate, try the must-fail edits, run the programs, then what is compared by running. Its last line is 'N passed, 0 failed'.
test:
	@tests/all

# The quick verdict: proofs and programs, over what earlier checks kept and without the must-fail edits.
check:
	@$(call want,rt)
	@rt all test

# Lay out every source file.
fmt:
	@$(call want,rt)
	@for crate in crates/*/; do (cd $$crate && rt fmt) || exit 1; done

# Play SCRIPT (examples/failover.txt) on fresh tables, each line beside its answer. SCRIPT=- plays standard input as it is, for use by hand.
SCRIPT ?= examples/failover.txt
play: target/bin/lockplay
ifeq ($(SCRIPT),-)
	@target/bin/lockplay
else
	@test -r '$(SCRIPT)' || { echo 'there is no $(SCRIPT)' >&2; exit 1; }
	@target/bin/lockplay <'$(SCRIPT)' | paste '$(SCRIPT)' - | expand -t 24
endif

# Proves what lockplay stands on, where that is not done yet, and builds and runs it on no input.
target/bin/lockplay: $(SOURCES)
	@$(call want,rt)
	@cd crates/lockplay && rt run </dev/null >&2
	@mkdir -p target/bin
	@cp crates/lockplay/out/lockplay $@

# Build the library for C programs, libzamgyorud.a and its header, in target/lib.
lib: target/lib/libzamgyorud.a target/lib/zamgyorud.h
	@echo 'target/lib has libzamgyorud.a and zamgyorud.h, version $(VERSION)' >&2

# The crates that C can call: the static libraries of crates.txt. `rt lib` proves each and what it stands on, where that is not done yet. It gives
# the library one object, whose only global names are the header's functions; what the crates share stands in each object, under local names.
C_CRATES := c_calls c_reads c_images
target/lib/libzamgyorud.a: $(SOURCES)
	@$(call want,rt)
	@$(call want,$(AR))
	@rm -rf target/objects $@
	@mkdir -p target/objects target/lib
	@for c in $(C_CRATES); do (cd crates/$$c && rt lib >&2) && (cd target/objects && $(AR) x ../../crates/$$c/out/lib$$c.a) || exit 1; done
	@$(AR) rcs $@ $(C_CRATES:%=target/objects/%.o)

target/lib/zamgyorud.h: include/zamgyorud.h
	@mkdir -p target/lib
	@cp $< $@

# The same objects, which are position-independent, as a shared library.
SHARED := target/lib/libzamgyorud.so.$(VERSION)
$(SHARED): target/lib/libzamgyorud.a
	@$(call want,$(CC))
	@$(CC) $(LDFLAGS) -shared -Wl,-soname,libzamgyorud.so.$(MAJOR) -Wl,-z,defs -Wl,--whole-archive $< -Wl,--no-whole-archive -o $@

# Install the header, the archive, the shared library and the pkg-config file below PREFIX (/usr/local). DESTDIR is put in front of every path.
# INCLUDEDIR, LIBDIR and PKGCONFIGDIR may be given too.
PREFIX ?= /usr/local
prefix := $(call whole,$(PREFIX))
INCLUDEDIR ?= $(prefix)/include
LIBDIR ?= $(prefix)/lib
PKGCONFIGDIR ?= $(LIBDIR)/pkgconfig
install: lib $(SHARED)
	@install -d '$(DESTDIR)$(INCLUDEDIR)' '$(DESTDIR)$(LIBDIR)' '$(DESTDIR)$(PKGCONFIGDIR)'
	@install -m 644 include/zamgyorud.h '$(DESTDIR)$(INCLUDEDIR)'
	@install -m 644 target/lib/libzamgyorud.a '$(DESTDIR)$(LIBDIR)'
	@install -m 755 $(SHARED) '$(DESTDIR)$(LIBDIR)'
	@ln -sfn $(notdir $(SHARED)) '$(DESTDIR)$(LIBDIR)/libzamgyorud.so.$(MAJOR)'
	@ln -sfn libzamgyorud.so.$(MAJOR) '$(DESTDIR)$(LIBDIR)/libzamgyorud.so'
	@sed -e 's|@PREFIX@|$(prefix)|' -e 's|@LIBDIR@|$(LIBDIR)|' -e 's|@INCLUDEDIR@|$(INCLUDEDIR)|' -e 's|@VERSION@|$(VERSION)|' \
	    include/zamgyorud.pc.in | install -m 644 /dev/stdin '$(DESTDIR)$(PKGCONFIGDIR)/zamgyorud.pc'
	@echo 'installed version $(VERSION) below $(DESTDIR)$(prefix)'

# Remove what `make install` put below the same PREFIX.
uninstall:
	@rm -f '$(DESTDIR)$(INCLUDEDIR)/zamgyorud.h' '$(DESTDIR)$(LIBDIR)/libzamgyorud.a' '$(DESTDIR)$(PKGCONFIGDIR)/zamgyorud.pc' \
	    '$(DESTDIR)$(LIBDIR)/libzamgyorud.so' '$(DESTDIR)$(LIBDIR)/libzamgyorud.so.$(MAJOR)' '$(DESTDIR)$(LIBDIR)/$(notdir $(SHARED))'

# The header in C and C++, a C program that calls each function of the library, and one that measures each call's stack. The second prints
# 'capi: N checks passed' and the third 'stack: N calls as told'.
test-c: lib
	@$(call want,$(CC))
	@$(call want,$(CXX))
	@CC='$(CC)' CXX='$(CXX)' sh tests/header.sh
	@for program in capi_test stack_test; do \
	    $(CC) -std=c11 -O2 -Wall -Wextra -Wconversion -Werror -pedantic -pthread -I target/lib tests/$$program.c target/lib/libzamgyorud.a \
	        -o target/lib/$$program && target/lib/$$program || exit 1; \
	done

# The takeover example on images that the model makes.
test-takeover: lib
	@$(call want,$(CC))
	@$(call want,cargo)
	@sh tests/takeover.sh target/lib

# The tests of the Rust wrapper, of the model and of the comparison.
test-rust: lib
	@$(call want,cargo)
	@cd rust && cargo test --release --offline --quiet --workspace
	@sh tests/rust_lib.sh

# The commands and programs that the README shows.
test-readme: lib target/bin/lockplay
	@$(call want,$(CC))
	@$(call want,cargo)
	@sh tests/readme.sh

# The README's C program with an installed library, static and shared.
test-install: lib
	@$(call want,pkg-config)
	@sh tests/install.sh

# Checks that the pages and the picture of the layers say what is there.
test-pages:
	@$(call want,python3)
	@tests/pages.py
	@docs/layers.py --check

# The comparison program without the library, for what needs the model alone.
COMPARE := $(CURDIR)/rust/target/release/compare
compare-program:
	@$(call want,cargo)
	@cd rust && cargo build --release --offline --quiet -p compare

# Writes again what lockplay is to print for its script in the gate and for the bench sequences: by the independent model.
expect: compare-program
	@sh tests/expected.sh write $(COMPARE)

# What is stored of that is what the model prints, and lockplay's script has every kind of line.
test-expected: compare-program
	@sh tests/expected.sh check $(COMPARE)

# Document 01's bench sequences, played by lockplay. Its last line says how many.
test-bench: target/bin/lockplay
	@sh tests/bench.sh $(CURDIR)/target/bin/lockplay

# Lockplay against the model on its script, the examples, chosen inputs and RUNS random ones.
RUNS ?= 1000
test-lockplay: compare-program target/bin/lockplay
	@$(COMPARE) lockplay target/bin/lockplay --runs $(RUNS) --seed $(SEED) crates/lockplay/stdin examples/*.txt examples/bench/*.txt

# The library against the independent model: every answer, word and slot byte after every call.
CALLS ?= 200000
SEED ?= 1
compare: lib
	@$(call want,cargo)
	@cd rust && cargo run --release --offline --quiet -p compare --features library -- --calls $(CALLS) --seed $(SEED)

# The same comparison with ten million calls.
soak:
	@$(MAKE) --no-print-directory compare CALLS=10000000 SEED=$(SEED)

# Time the library beside a plain Rust manager over the same tables, into docs/BENCHMARKS.md and its plot.
bench: lib
	@$(call want,cargo)
	@cd rust && cargo run --release --offline --quiet -p bench

# A tool that has to be there, or a message that says which one is missing.
want = command -v $(1) >/dev/null || { echo 'missing: $(1)' >&2; exit 1; }
