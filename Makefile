# make            the archive and planlook
# make look       planlook on an example
# make test       every proof, then the tests over the archive; the last line is 'N passed, M failed'
# make bench      times beside ordinary Rust programs; make callgrind: instructions a call
# make soak       random tests for SECONDS= from a printed seed, or from SEED=
# make ages       answers of an older archive, OLD=, of age AGE= (1 to 3), beside this one's on images from before version 2.0.0
# make install    into PREFIX=, below DESTDIR=
# make clean

PREFIX ?= /usr/local
DESTDIR ?=
SECONDS ?= 300
AGE ?= 1
VERSION = 3.6.0

ARCHIVE ?= target/staticlib/libgindrazoma.a
PLANLOOK ?= target/bin/planlook

CC ?= cc
CXX ?= c++
WARNINGS = -Wall -Wextra -Werror
CFLAGS ?= -O2 -g
CARGO = GINDRAZOMA_LIB=$(abspath $(dir $(ARCHIVE))) cargo
RUST = build/cargo/release

# What `make test` checks, in order. Each line is a stage of the library: without it, nothing of that stage is built or run. Stages are checked side
# by side, once the proofs are through.
STAGES  = proofs
STAGES += images    # gindrazoma_read_image, gindrazoma_write_image
STAGES += norms     # gindrazoma_plan_norm, gindrazoma_nth_move, gindrazoma_shortest_run
STAGES += sameness  # gindrazoma_compare, gindrazoma_prime_form
STAGES += alike     # gindrazoma_compare_alike, gindrazoma_prime_form_alike
STAGES += logs      # gindrazoma_replay_log
STAGES += outcomes  # gindrazoma_deterministic
STAGES += growth    # gindrazoma_plan_growth
STAGES += joined    # gindrazoma_compare_tables
STAGES += whole     # every call of the header together
STAGES += planlook  # the program, and what is installed

# The checks of each stage: `make check-NAME` for each name.
CHECKS_proofs   = proofs
CHECKS_images   = $(call library-checks,images)
CHECKS_norms    = $(call library-checks,norms)
CHECKS_sameness = $(call library-checks,sameness)
CHECKS_alike    = $(call library-checks,alike)
CHECKS_logs     = $(call library-checks,logs)
CHECKS_outcomes = $(call library-checks,outcomes)
CHECKS_growth   = $(call library-checks,growth)
CHECKS_joined   = $(call library-checks,joined)
CHECKS_whole    = symbols names c-load memory-c-load plain example
CHECKS_planlook = samples rust-look install
library-checks  = c-$(1) pages-c-$(1) memory-c-$(1) rust-$(1) memory-rust-$(1) wrapper-$(1)

.PHONY: all look test ready bench callgrind soak ages old-archive install clean
.DELETE_ON_ERROR:

all: $(ARCHIVE) $(PLANLOOK)

test:
	@tests/run.sh $(foreach stage,$(STAGES),'$(CHECKS_$(stage))')

# what the stages share, so that no two of them build it at once
ready: $(ARCHIVE) $(PLANLOOK)
	@tests/valgrind.sh || true # without it the tests of memory say that they were not run
	@$(CARGO) build -q --release -p outside
	@$(CARGO) build -q --release -p bench --bin agree
	@$(CARGO) test -q --release -p gindrazoma --no-run

# ---- the library and the program, proved and built by rt

SOURCES := crates.txt $(shell find crates -name out -prune -o \( -name '*.rt' -o -name '*.antt' \) -print)

target/staticlib/libgindrazoma.a: $(SOURCES)
	@tools/progress.sh gindrazoma_c build/log/gindrazoma.log sh -c 'cd crates/gindrazoma_c && rt lib'
	@mkdir -p $(@D) && cp crates/gindrazoma_c/out/libgindrazoma_c.a $@

target/bin/planlook: $(SOURCES)
	@tools/progress.sh planlook build/log/planlook.log sh -c 'cd crates/planlook && rt run </dev/null'
	@mkdir -p $(@D) && cp crates/planlook/out/planlook $@

check-proofs:
	@tests/proofs.sh

# ---- C

build/c/%: tests/c/%.c tests/c/check.c tests/c/tables.c tests/c/check.h include/gindrazoma.h $(ARCHIVE)
	@mkdir -p $(@D)
	$(CC) -std=c11 $(WARNINGS) $(CFLAGS) -Iinclude -o $@ $< tests/c/check.c tests/c/tables.c $(ARCHIVE) -pthread

check-c-%: build/c/%
	@build/c/$*

check-pages-c-%: build/c/%
	@AREAS=pages SMALL=1 build/c/$*

check-memory-c-%: build/c/%
	@tests/memory.sh build/c/$*

check-symbols: $(ARCHIVE)
	@tests/symbols.sh $(ARCHIVE)

check-names: $(ARCHIVE)
	@tests/names.sh $(ARCHIVE)

# ---- Rust

check-rust-%: $(ARCHIVE)
	@$(CARGO) build -q --release -p outside --bin $*
	@PLANLOOK=$(PLANLOOK) $(RUST)/$*

check-memory-rust-%: $(ARCHIVE)
	@$(CARGO) build -q --release -p outside --bin $*
	@tests/memory.sh $(RUST)/$*

check-wrapper-%: $(ARCHIVE)
	@$(CARGO) test -q --release -p gindrazoma --test $* 2>&1 | tests/cargo-count.sh

check-rust-look: $(PLANLOOK)

# the plain programs of the benchmark beside the second comparer
check-plain: $(ARCHIVE)
	@$(CARGO) build -q --release -p bench --bin agree
	@$(RUST)/agree

bench: $(ARCHIVE)
	@$(CARGO) build -q --profile timing -p bench --bin bench
	@build/cargo/timing/bench

# the norm alone: make callgrind COUNTED=norm-calls
COUNTED = norm-calls move-calls run-calls short-run-calls compare-calls alike-calls log-calls outcome-calls growth-calls joined-calls

callgrind: $(ARCHIVE)
	@$(CARGO) build -q --profile timing -p bench $(addprefix --bin ,$(COUNTED))
	@bench/callgrind.sh $(addprefix build/cargo/timing/,$(COUNTED))

soak: $(ARCHIVE)
	@$(CARGO) build -q --release -p outside
	@status=0; for program in images norms sameness alike logs outcomes growth joined; do \
		env SECONDS=$$(($(SECONDS) / 8)) $(RUST)/$$program || status=1; \
	done; exit $$status

ages: old-archive $(ARCHIVE)
	@AGE=$(AGE) tests/ages.sh $(OLD) $(ARCHIVE)

old-archive:
	@test -f "$(OLD)" || { echo "make ages OLD=FILE: FILE is a libgindrazoma.a from before version 2.0.0, with AGE=2 from before 3.0.0, with AGE=3 from before 3.1.0; there is no '$(OLD)'" >&2; exit 1; }

# ---- examples, and planlook on them

build/examples/%: examples/%.c include/gindrazoma.h $(ARCHIVE)
	@mkdir -p $(@D)
	$(CC) -std=c11 -pedantic $(WARNINGS) $(CFLAGS) -Iinclude -o $@ $< $(ARCHIVE)

build/examples/%-cpp: examples/%.c include/gindrazoma.h $(ARCHIVE)
	@mkdir -p $(@D)
	$(CXX) -x c++ -std=c++17 -pedantic $(WARNINGS) $(CFLAGS) -Iinclude -o $@ $< -x none $(ARCHIVE)

build/samples/samples: examples/samples.c
	@mkdir -p $(@D)
	$(CC) -std=c11 -pedantic $(WARNINGS) $(CFLAGS) -o $@ $<

check-example: $(foreach name,pool crane ship,build/examples/$(name) build/examples/$(name)-cpp)
	@tests/outputs.sh $^

check-samples: build/samples/samples $(PLANLOOK)
	@tests/samples.sh build/samples/samples $(PLANLOOK)

look: $(PLANLOOK)
	$(PLANLOOK) < examples/planlook/table-t.in

# ---- installed files

install: $(ARCHIVE) $(PLANLOOK)
	install -d $(DESTDIR)$(PREFIX)/include $(DESTDIR)$(PREFIX)/lib/pkgconfig $(DESTDIR)$(PREFIX)/bin \
		$(DESTDIR)$(PREFIX)/share/man/man1 $(DESTDIR)$(PREFIX)/share/man/man3
	install -m 644 include/gindrazoma.h $(DESTDIR)$(PREFIX)/include/gindrazoma.h
	install -m 644 $(ARCHIVE) $(DESTDIR)$(PREFIX)/lib/libgindrazoma.a
	sed -e 's|@PREFIX@|$(PREFIX)|' -e 's|@VERSION@|$(VERSION)|' gindrazoma.pc.in > $(DESTDIR)$(PREFIX)/lib/pkgconfig/gindrazoma.pc
	chmod 644 $(DESTDIR)$(PREFIX)/lib/pkgconfig/gindrazoma.pc
	install -m 755 $(PLANLOOK) $(DESTDIR)$(PREFIX)/bin/planlook
	install -m 644 man/planlook.1 $(DESTDIR)$(PREFIX)/share/man/man1/planlook.1
	install -m 644 man/gindrazoma.3 $(DESTDIR)$(PREFIX)/share/man/man3/gindrazoma.3

check-install: $(ARCHIVE) $(PLANLOOK)
	@tests/install.sh $(ARCHIVE) $(PLANLOOK)

clean:
	rm -rf build target
