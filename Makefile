# make            builds in build/, with a C compiler alone, from the assembly in dist/: libsenyolanda.a, libsenyolanda.so and
#                 senyolanda.pc for programs that link the library, and the program senyolanda
# make run        builds, draws a sample loan's schedule, and prints a sample loan's statement
# make install    puts library, header and program under PREFIX, within DESTDIR; make uninstall takes them away
# make test       proves everything by `rt ci`, sees that dist/ is what was proved, then runs every test; its last line is
#                 `rt ci`'s. It needs the Rattle kit, and so do dist and impostors
# make dist       makes dist/ anew from the proved crates
# make impostors CRATES=..   sees that the crates' impostors (every crate's, where none is named) are refused, each where it must be
# make test-KIND  runs the tests in C over the library for KIND: aarch64, x86-64 or x86-64-v3; emulated where this machine is of
#                 another; make KIND builds its archive build/KIND/libsenyolanda.a
# make differential COUNT=..   compares every function with the Rust's published files, which FIN_PRIMITIVES says where they are
# make bench      times jobs beside the Rust, which is compiled for this machine's own processor
SHELL := /bin/sh
CFLAGS ?= -O2
PREFIX ?= /usr/local
BINDIR ?= $(PREFIX)/bin
LIBDIR ?= $(PREFIX)/lib
INCLUDEDIR ?= $(PREFIX)/include
FIN_PRIMITIVES ?= ../shared/docs/src
WARNINGS := -pedantic -Wall -Wextra

# The version stands in the header.
part = $(shell sed -n 's/^\#define SENYOLANDA_VERSION_$(1) //p' include/senyolanda.h)
VERSION := $(call part,MAJOR).$(call part,MINOR).$(call part,PATCH)
# The number goes up when a program that was linked before would no longer run as it did.
SONAME := libsenyolanda.so.1

# The kinds of processor that dist/ has assembly for, and the one that CC compiles for.
KINDS := aarch64 x86-64 x86-64-v3
MACHINE := $(firstword $(subst -, ,$(or $(shell $(CC) -dumpmachine 2>/dev/null),$(shell uname -m))))
KIND := $(subst _,-,$(MACHINE))
# An x86-64 processor with AVX2 is better served by a build of its own, which the loader finds by itself.
FASTER := $(if $(filter x86-64,$(KIND)),x86-64-v3)
# What a kind's tools are called where it is not this machine's own.
CROSS_aarch64 := aarch64-linux-gnu-
CROSS_x86-64 := x86_64-linux-gnu-
CROSS_x86-64-v3 := x86_64-linux-gnu-
$(foreach kind,$(KIND) $(FASTER),$(eval CROSS_$(kind) :=))
compiler = $(if $(CROSS_$(1)),$(CROSS_$(1))gcc,$(CC))
archiver = $(if $(CROSS_$(1)),$(CROSS_$(1))ar,$(AR))

LIBRARIES := build/libsenyolanda.a build/libsenyolanda.so $(FASTER:%=build/glibc-hwcaps/%/$(SONAME))

.PHONY: all $(KINDS) run dist test tests bench install uninstall clean cc kit always
# Two proofs at a time would each take every processor.
.NOTPARALLEL:
.SECONDARY:

all: $(LIBRARIES) build/senyolanda.pc build/senyolanda

cc:
	@$(if $(filter $(KIND),$(KINDS)),,echo "make: dist/ has no assembly for $(KIND), only for $(KINDS)" >&2; exit 1)
	@tools/need $(firstword $(CC)) gcc libc6-dev

kit: cc
	@command -v rt >/dev/null || { echo "make: please install the Rattle kit (its command is rt)" >&2; exit 1; }

# ---- from dist/, with a C compiler

build/%/senyolanda.o: dist/%.s | cc
	@mkdir -p $(@D)
	$(if $(CROSS_$*),@tools/need $(call compiler,$*) gcc-$(subst _,-,$(CROSS_$*:-=)) libc6-dev-$(if $(filter aarch64,$*),arm64,amd64)-cross)
	$(call compiler,$*) -c $< -o $@

build/%/libsenyolanda.a: build/%/senyolanda.o
	rm -f $@
	$(call archiver,$*) rcs $@ $<

build/%/$(SONAME): build/%/senyolanda.o
	echo '{ global: senyolanda_*; local: *; };' >build/$*/exported
	$(call compiler,$*) -shared -o $@ -Wl,-soname,$(SONAME),--version-script=build/$*/exported,-Bsymbolic,-z,defs,-z,text $<

$(KINDS): %: build/%/libsenyolanda.a

# This machine's own stand in build/ itself, and where the loader looks for a faster one.
build/libsenyolanda.a: build/$(KIND)/libsenyolanda.a
	ln -sf $(KIND)/libsenyolanda.a $@

build/libsenyolanda.so: build/$(KIND)/$(SONAME)
	ln -sf $(KIND)/$(SONAME) build/$(SONAME)
	ln -sf $(SONAME) $@

build/glibc-hwcaps/%/$(SONAME): build/%/$(SONAME)
	@mkdir -p $(@D)
	ln -sf ../../$*/$(SONAME) $@

# Written each time, since PREFIX may be another.
build/senyolanda.pc: senyolanda.pc.in always
	@mkdir -p build
	@sed 's|@PREFIX@|$(PREFIX)|; s|@LIBDIR@|$(LIBDIR)|; s|@INCLUDEDIR@|$(INCLUDEDIR)|; s|@VERSION@|$(VERSION)|' $< >$@

PROGRAM := $(wildcard host/*.c) include/senyolanda.h build/libsenyolanda.a
build/senyolanda: $(PROGRAM) $(wildcard host/*.h)
	$(CC) -std=c99 $(WARNINGS) $(CFLAGS) -Iinclude $(filter %.c %.a,$(PROGRAM)) -o $@

run: build/senyolanda
	printf '\001\0\0\0\0\0\300\222\100\0\0\0\0\0\0\0\0\003\0\0\0' | build/senyolanda schedule
	build/senyolanda statement 12000 0.06 12

install: all
	install -d $(DESTDIR)$(BINDIR) $(DESTDIR)$(LIBDIR)/pkgconfig $(DESTDIR)$(INCLUDEDIR)
	install -m 644 include/senyolanda.h $(DESTDIR)$(INCLUDEDIR)
	install -m 644 build/libsenyolanda.a $(DESTDIR)$(LIBDIR)
	install -m 755 build/$(SONAME) $(DESTDIR)$(LIBDIR)
	ln -sf $(SONAME) $(DESTDIR)$(LIBDIR)/libsenyolanda.so
	$(foreach kind,$(FASTER),install -D -m 755 build/$(kind)/$(SONAME) $(DESTDIR)$(LIBDIR)/glibc-hwcaps/$(kind)/$(SONAME))
	install -m 644 build/senyolanda.pc $(DESTDIR)$(LIBDIR)/pkgconfig
	install -m 755 build/senyolanda $(DESTDIR)$(BINDIR)

uninstall:
	rm -f $(DESTDIR)$(INCLUDEDIR)/senyolanda.h $(DESTDIR)$(LIBDIR)/libsenyolanda.a
	rm -f $(DESTDIR)$(LIBDIR)/$(SONAME) $(DESTDIR)$(LIBDIR)/libsenyolanda.so $(DESTDIR)$(LIBDIR)/pkgconfig/senyolanda.pc
	rm -f $(FASTER:%=$(DESTDIR)$(LIBDIR)/glibc-hwcaps/%/$(SONAME)) $(DESTDIR)$(BINDIR)/senyolanda

clean:
	rm -rf build crates/*/out

# ---- from the crates, with the kit

dist: kit
	tools/compile --assembly dist

# The gate comes first, and what it proved is compiled after it and held to dist/. Its last line is the last here too.
test: kit
	@tools/need objdump binutils
	@tools/need c++ g++
	@tools/need python3 python3
	@tools/need rustc rustc libstd-rust-dev
	@tools/need pkg-config pkg-config
	test/gate build/gate.log
	$(MAKE) tests
	@tail -n 1 build/gate.log

# Every test but the gate, as many at once as there are processors; what each prints is shown whole, when it ends.
tests: all build/test/senyolanda build/test/schedule $(FASTER:%=build/%/libsenyolanda.a)
	$(MAKE) -f test/Makefile -j"$$(nproc)" --output-sync=target FASTER=$(FASTER)

# The program, watching its memory where the compiler can.
build/test/senyolanda: $(PROGRAM) $(wildcard host/*.h) test/sanitizer
	@mkdir -p build/test
	$(CC) -std=c99 $(WARNINGS) -Werror -g $$(test/sanitizer "$(CC)") -Iinclude $(filter %.c %.a,$(PROGRAM)) -o $@

# The program in Rattle, whose bytes the command `senyolanda schedule` writes.
build/test/schedule: crates.txt $(shell find crates/schedule crates/listing -name '*.rt') tools/compile | kit
	tools/compile schedule $@

# Wrong programs that must be refused beyond those that the gate tries. Before a landing: for every crate that it touched.
.PHONY: impostors
impostors: kit
	@tools/need python3 python3
	tools/impostors $(CRATES)

# The tests in C once more, over the library for a kind of processor; elsewhere they are cross-compiled and emulated. Where a masked load
# takes nothing, a processor touches no memory; qemu 7.2 touches it all, and so meets the guard pages of the tests of pools.
EMULATED_WITHOUT_x86-64-v3 := --without test_pools
.PHONY: $(KINDS:%=test-%)
$(KINDS:%=test-%): test-%: build/%/libsenyolanda.a
	$(if $(CROSS_$*),@tools/need qemu-$(CROSS_$*:-linux-gnu-=) qemu-user)
	test/c/run $(if $(CROSS_$*),$(EMULATED_WITHOUT_$*)) $< $(call compiler,$*) $(if $(CROSS_$*),"qemu-$(CROSS_$*:-linux-gnu-=) -cpu max -L /usr/$(CROSS_$*:-=)")

# Beside the Rust's published files, COUNT cases a family (10,000, and 100 for pools and bootstraps).
differential: build/libsenyolanda.a
	@tools/need rustc rustc libstd-rust-dev
	@tools/need nm binutils
	differential/run build/libsenyolanda.a "$(FIN_PRIMITIVES)" $(COUNT)
	@build/differential/compare --differences | sed -n '/^|/p' >build/differential/rows
	@! grep -vxFf docs/DIFFERENCES.md build/differential/rows || { echo "differential: docs/DIFFERENCES.md lacks the lines above" >&2; exit 1; }

# The Rust's answers that the program replay_answers asks again, made anew; its file stdout says how many there are.
replay-list: build/libsenyolanda.a
	@mkdir -p build/lists
	differential/run build/libsenyolanda.a "$(FIN_PRIMITIVES)" --list build/lists
	differential/replayed build/lists crates/replay_answers/stdin

# Where the Rust's files are not at hand and nobody said where they are, the replayed list stands in.
.PHONY: differential differential-if-there replay-list
differential-if-there:
	@if [ "$(origin FIN_PRIMITIVES)" != file ] || [ -d "$(FIN_PRIMITIVES)/src/fixed_income" ]; then $(MAKE) differential; \
	else echo "differential: the Rust's files are not at $(FIN_PRIMITIVES); the replayed list stands in"; fi

# What is missing is said before time goes into anything else.
.PHONY: bench-needs
bench-needs:
	@bench/needs "$(FIN_PRIMITIVES)"

bench: bench-needs build/libsenyolanda.a $(FASTER:%=build/%/libsenyolanda.a)
	bench/run build/libsenyolanda.a "$(FIN_PRIMITIVES)" $(FASTER:%=build/%/libsenyolanda.a)
