# Kovrelna: build, install and test. Needs the Rattle toolchain (rt) and a C compiler; the command-line tool, evidence and the
# tests also need cargo, the tests pkg-config and Python.
VERSION = 0.1.0
SOURCES := crates.txt $(shell find crates -path 'crates/*/out' -prune -o \( -name '*.rt' -o -name '*.antt' \) -print)
ARCHIVE = target/staticlib/libkovrelna.a
REDUCE = target/bin/reduce
SONAME = libkovrelna.so.$(firstword $(subst ., ,$(VERSION)))
SHARED = target/shared/libkovrelna.so.$(VERSION)
# Without make's own flags: cargo has jobs of its own.
CARGO = env -u MAKEFLAGS -u MFLAGS cargo --quiet
CARGO_FLAGS = --offline --locked --manifest-path bindings/rust/Cargo.toml
C_FLAGS = -O2 -Wall -Wextra -Wpedantic -Werror -Ibindings/c
SANITIZE = -g -fsanitize=address,undefined -fno-sanitize-recover=all

BENCH_FLAGS = -O3

PREFIX = /usr/local
BINDIR = $(PREFIX)/bin
LIBDIR = $(PREFIX)/lib
INCLUDEDIR = $(PREFIX)/include
PYTHONDIR = $(LIBDIR)/kovrelna-python
PYTHON = python3

# Refuses a place that pkg-config could not name, before anything is proved: a relative one, or one with spaces.
PLACES = PREFIX BINDIR LIBDIR INCLUDEDIR PYTHONDIR
CHECK_PLACES = $(foreach place,$(PLACES),$(if $(and $(filter 1,$(words $($(place)))),$(filter /%,$($(place)))),,\
$(error $(place) must be an absolute path without spaces, not '$($(place))')))
ifneq ($(filter install install-cli install-python uninstall,$(MAKECMDGOALS)),)
$(CHECK_PLACES)
endif

# What the archive and the program run on: every x86-64.
PROCESSOR = --cpu x86-64

# Runs rt in this folder, with these words. Prints a line for each crate once it is proved; where rt fails, all that it has said.
RT = log=$$(mktemp); trap 'rm -f "$$log" "$$log.status"' EXIT; \
{ (cd $(1) && exec rt $(2)) </dev/null 2>&1; echo $$? >"$$log.status"; } | tee "$$log" | \
sed -un -e '/^rt: chose\|^rt: running/d' -e '/^rt:/p' -e 's/^crate \([^:]*\):.*/rt: \1 proved/;T end' -e h -e ':end' \
-e '/^logic=proved/{x;/./p;s/.*//;x;}'; \
if [ "$$(cat "$$log.status")" != 0 ]; then cat "$$log"; exit 1; fi

# The gate's run of evidence: about 6 seconds.
GATE_EVIDENCE = --cases 30000 --seed 1
EVIDENCE = $(CARGO) run $(CARGO_FLAGS) --release --package kovrelna-evidence --

.PHONY: lib shared cli install install-cli install-python uninstall example evidence test test-rust test-c test-memory test-install test-python bench

# Prove the library and write the archive that programs link.
lib: $(ARCHIVE)

$(ARCHIVE): $(SOURCES)
	@$(call RT,crates/kovrelna,lib $(PROCESSOR))
	@mkdir -p $(@D)
	@cp crates/kovrelna/out/libkovrelna.a $@

# Proves and builds the program, and runs it once on no input.
$(REDUCE): $(SOURCES)
	@$(call RT,crates/reduce,run $(PROCESSOR))
	@mkdir -p $(@D)
	@cp crates/reduce/out/reduce $@

# The shared library, from the archive, with copies under its other names: rt ci refuses links in the checkout.
shared: $(SHARED)

$(SHARED): $(ARCHIVE) bindings/c/kovrelna.map Makefile
	@mkdir -p target/shared
	@$(CC) -shared -Wl,-soname,$(SONAME) -Wl,--version-script=bindings/c/kovrelna.map -Wl,-z,defs,-z,now \
	-Wl,--whole-archive $(ARCHIVE) -Wl,--no-whole-archive -o $@
	@cp $@ target/shared/$(SONAME)
	@cp $@ target/shared/libkovrelna.so

# Header, both libraries and the pkg-config file, below DESTDIR where that is given.
install: $(SHARED)
	@install -d "$(DESTDIR)$(INCLUDEDIR)" "$(DESTDIR)$(LIBDIR)/pkgconfig"
	@install -m 644 bindings/c/kovrelna.h "$(DESTDIR)$(INCLUDEDIR)"
	@install -m 644 $(ARCHIVE) "$(DESTDIR)$(LIBDIR)"
	@install -m 755 $(SHARED) "$(DESTDIR)$(LIBDIR)"
	@ln -sf $(notdir $(SHARED)) "$(DESTDIR)$(LIBDIR)/$(SONAME)"
	@ln -sf $(SONAME) "$(DESTDIR)$(LIBDIR)/libkovrelna.so"
	@sed -e 's|@PREFIX@|$(PREFIX)|' -e 's|@LIBDIR@|$(LIBDIR)|' -e 's|@INCLUDEDIR@|$(INCLUDEDIR)|' \
	-e 's|@VERSION@|$(VERSION)|' bindings/c/kovrelna.pc.in >"$(DESTDIR)$(LIBDIR)/pkgconfig/kovrelna.pc"
	@chmod 644 "$(DESTDIR)$(LIBDIR)/pkgconfig/kovrelna.pc"

uninstall:
	@rm -f "$(DESTDIR)$(BINDIR)/kovrelna" "$(DESTDIR)$(INCLUDEDIR)/kovrelna.h" "$(DESTDIR)$(LIBDIR)/pkgconfig/kovrelna.pc"
	@for name in a so $(patsubst libkovrelna.%,%,$(SONAME) $(notdir $(SHARED))); do \
	rm -f "$(DESTDIR)$(LIBDIR)/libkovrelna.$$name"; done
	@rm -rf "$(DESTDIR)$(PYTHONDIR)/kovrelna"
	@rmdir --ignore-fail-on-non-empty "$(DESTDIR)$(PYTHONDIR)" 2>/dev/null || true

# The command-line tool, as bindings/rust/target/release/kovrelna.
cli: lib
	@$(CARGO) build $(CARGO_FLAGS) --release --package kovrelna-cli

install-cli: cli
	@install -d "$(DESTDIR)$(BINDIR)"
	@install -m 755 bindings/rust/target/release/kovrelna "$(DESTDIR)$(BINDIR)"

# The Python module, with the shared library beside it.
install-python: $(SHARED)
	@install -d "$(DESTDIR)$(PYTHONDIR)/kovrelna"
	@install -m 644 bindings/python/kovrelna/*.py bindings/python/kovrelna/py.typed "$(DESTDIR)$(PYTHONDIR)/kovrelna"
	@install -m 755 $(SHARED) "$(DESTDIR)$(PYTHONDIR)/kovrelna/$(SONAME)"

# Compare the library with the slow reference: make evidence [CASES=n | MINUTES=m] [SEED=s], or one case of an earlier
# run: make evidence SEED=s CASE=k.
evidence: lib
	@$(EVIDENCE) $(if $(MINUTES),--minutes $(MINUTES)) $(if $(CASES),--cases $(CASES)) $(if $(SEED),--seed $(SEED)) \
	$(if $(CASE),--case $(CASE))

# Reduce the samples of a shipped record.
example: $(REDUCE)
	@$(REDUCE) <examples/wave.record

# Prove everything, try the edits that must fail, of which none may be bad, and run every test, two at a time once what they
# test is built. The last line is rt ci's.
test:
	@$(call RT,.,ci); \
	if ! grep -q '^rt: ok' "$$log" || grep -q '^rt: ok.*, [0-9]* bad' "$$log"; then cat "$$log"; exit 1; fi; \
	mkdir -p target && tail -n 1 "$$log" >target/verdict
	@rm -f $(ARCHIVE) $(REDUCE)
	@$(MAKE) --no-print-directory --silent $(SHARED) $(REDUCE)
	@$(MAKE) --no-print-directory --jobs=2 --output-sync=target test-rust test-c test-memory test-install test-python
	@cat target/verdict

# The Rust tests, which run the program reduce too, and the example, which prints what the C example prints. What the tests have
# written is removed: rt ci refuses the links among it.
test-rust: $(ARCHIVE) $(REDUCE)
	@$(CARGO) test $(CARGO_FLAGS) --release --workspace --lib --tests; status=$$?; rm -rf bindings/rust/target/tmp; exit $$status
	@$(CARGO) test $(CARGO_FLAGS) --release --workspace --doc
	@$(EVIDENCE) $(GATE_EVIDENCE)
	@$(CARGO) run $(CARGO_FLAGS) --release --package kovrelna --example reduce | diff bindings/c/example.txt -

# The C test, also as C++ and under sanitizers where there are compilers for it.
test-c: $(ARCHIVE)
	@$(CC) -std=c99 $(C_FLAGS) bindings/c/test.c $(ARCHIVE) -o target/test-c && target/test-c
	@if command -v $(CXX) >/dev/null; then \
	$(CXX) -x c++ -std=c++11 $(C_FLAGS) bindings/c/test.c -x none $(ARCHIVE) -o target/test-c++ && target/test-c++; fi
	@if echo 'int main(void) { return 0; }' | $(CC) $(SANITIZE) -x c - -o target/test-c-sanitized 2>/dev/null; then \
	$(CC) -std=c99 $(C_FLAGS) $(SANITIZE) bindings/c/test.c $(ARCHIVE) -o target/test-c-sanitized \
	&& target/test-c-sanitized; else echo "c: no sanitizers here"; fi

# Range codes need no read-only data: no table of their values, and no constants of vector instructions. Their code refers to
# nothing else.
test-memory: $(ARCHIVE)
	@$(PYTHON) -B bench/memory.py --alone kovrelna_expand --alone kovrelna_expand_with $(ARCHIVE) >target/memory

# Install into a temporary place; build and run the C example and run the Python example from there.
test-install: $(SHARED)
	@CC="$(CC)" PYTHON="$(PYTHON)" bindings/c/test-install.sh $(VERSION)

# The tests of the Python module, its example and its types, with numpy and without.
test-python: $(SHARED)
	@KOVRELNA_LIBRARY="$(CURDIR)/$(SHARED)" PYTHON="$(PYTHON)" bindings/python/test.sh

# Time the calls beside plain C and compare what the reductions keep; count instructions where valgrind is present; then the
# read-only bytes of the archive, and the summary with the times from Python.
bench: $(SHARED)
	@$(CC) -std=c99 $(C_FLAGS) $(BENCH_FLAGS) -DFLAGS='"$(CC) $(BENCH_FLAGS)"' bench/bench.c bench/peers.c $(ARCHIVE) -o target/bench
	@target/bench
	@bench/instructions.sh target/bench
	@echo; $(PYTHON) -B bench/memory.py $(ARCHIVE)
	@echo; KOVRELNA_LIBRARY="$(CURDIR)/$(SHARED)" PYTHONPATH=bindings/python $(PYTHON) -B bench/python.py target/bench
