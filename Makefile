# make                   builds the program and the C library. With TARGET=aarch64, this target and those below that
#                        install or package make what there is for AArch64: the library, by a cross compiler,
#                        and no program
# make test              the gate: everything is proved and tested, a sample of the mutants is tried, then the
#                        program and the library are tried
# make check-more        tries the library with tools that the gate doesn't need: clang, valgrind,
#                        gettext, libclang, mypy, lintian, debootstrap, meson, CMake, the shells of the
#                        completions, wasm-opt, node, browsers, and a cross compiler and an emulator of AArch64
# make quick             builds the program and the library without proving them, and tries both: for work in between.
#                        What it passes is not proved, and the gate tries all of it again
# make run               builds the program so, and asks it for the canonical text of a format, or with
#                        ASK="same '%05d' '%.5d'" something different
# make mutants           tries the mutants that the records don't have as refused, and writes them there
# make library           builds the C library alone
# make page              the library as a module of WebAssembly, and the page that runs it in a browser, in out/web
# make try               that, and puts the page into docs/try
# make try-again         makes the page of docs/try again of words and scripts, with the module that it has
# make npm               a package of that module for Node and browsers
# make install PREFIX=   installs what `make` built: the program, the C library, the Python module
#                        with its six commands, manual pages, completions and documents; below
#                        DESTDIR=, where that is given. It builds nothing
# make uninstall PREFIX= takes all of that away again
# make dist              an archive of what `make` built, which installs without the kit
# make deb MAINTAINER=   a Debian package of it, by the person who is named so: 'Name <address>'
# make wheel             a wheel of the Python module with the library and the program inside
#                        All three also write out/SHA256SUMS
# make crate             a package of Cargo, made of the proved sources: with rustc, and without the kit, it builds the
#                        program and the library
# make tables SOURCES= RELEASES=
#                        writes out/tables.md: what the commands say of a machine's own catalogs, of source
#                        trees with a compile_commands.json in these folders, and of releases in pairs of folders

# The file VERSION has the version; tests/documents/ compares every other copy of it. The major version names the ABI.
VERSION := $(file < VERSION)
SONAME = libfmtcanon.so.$(firstword $(subst ., ,$(VERSION)))
# The processor: x86_64, or aarch64. An archive has no sources of the library, and is for one of them.
ifeq ($(wildcard library out/c-aarch64),out/c-aarch64)
TARGET = aarch64
else
TARGET = x86_64
endif
# The program, if there is one for the processor; the folder that the C library is made in; and what the names of its
# tools begin with, if they are a cross compiler's. `rt ci` keeps only its own files in a crate's out/.
ifeq ($(TARGET),x86_64)
PROGRAM = crates/fmtcanon/out/fmtcanon
C = out/c
CROSS =
else ifeq ($(TARGET),aarch64)
PROGRAM =
C = out/c-aarch64
CROSS = aarch64-linux-gnu-
CC = $(CROSS)gcc
else
$(error TARGET is x86_64 or aarch64)
endif
SHARED = $(C)/libfmtcanon.so.$(VERSION)
# The oldest processors that the library is to run on, as the words of `rt lib`. It doesn't test for them.
CPU_x86_64 = --cpu x86-64
CPU_aarch64 = --target aarch64-unknown-linux-gnu
CPU = $(CPU_$(TARGET))

# How many checks `rt ci` and the trials of mutants run side by side: one a processor, with 5 GB of free memory. So each has
# one job; left alone, `rt ci` gives some four, and such a check takes up to twice the time of processors.
JOBS = $(shell awk -v n="$$(nproc)" '/^MemAvailable/ { m = int($$2 / 5000000); \
    if (m > n) m = n; if (m < 1) m = 1; print m }' /proc/meminfo)

.PHONY: all program library archive test gate sample tried trials quick run check-more mutants tools c-tools crate
.PHONY: page try try-again web-tools built places install uninstall dist deb wheel npm tables

all: $(if $(PROGRAM),program) library

# Building proves what it builds.
program: tools
	cd crates/fmtcanon && rt run -- canon 'Total: %i of %u%%'

library: $(C)/libfmtcanon.a $(SHARED)

# The folder in which the crate of the C library is proved and built; rt knows what has changed.
C_CRATE = crates/fmtcanon_c

# In the gate, over the libraries that `rt ci` has proved (tests/mutants/built.py).
BUILD_C = cd $(C_CRATE) && rt lib $(CPU)
BUILD_C_OVER_CI = python3 -m tests.mutants.built $(C_CRATE)/out/libfmtcanon_c.a $(CPU)

archive: tools c-tools
	$(BUILD_C)
	mkdir -p $(C)

# One object, whose only global names are those of the header.
JOIN = CC="$(CC)" CROSS="$(CROSS)" library/join.sh $(C_CRATE)/out/libfmtcanon_c.a

# A file that stays as it is causes nothing to be made again.
$(C)/fmtcanon.o: archive
	$(JOIN) $@.new
	cmp -s $@.new $@ || mv $@.new $@
	rm -f $@.new

$(C)/libfmtcanon.a: $(C)/fmtcanon.o
	rm -f $@
	$(CROSS)ar rcs $@ $<

LINK = $(CC) -shared -Wl,-soname,$(SONAME) -Wl,-z,defs -Wl,-z,text -Wl,-z,relro -Wl,-z,now $(LDFLAGS)

# Its other names are hard links: `rt ci` refuses a tree with symbolic ones.
$(SHARED): $(C)/fmtcanon.o
	$(LINK) -o $@ $<
	ln -f $@ $(C)/$(SONAME)
	ln -f $@ $(C)/libfmtcanon.so

# The library as Rattle's own compiler builds it, to compare what the two answer.
$(C)/second.a: library
	cd $(C_CRATE) && rt lib --backend rattle
	$(JOIN) $(C)/second.o
	cd $(C_CRATE) && rt lib $(CPU)
	rm -f $@
	ar rcs $@ $(C)/second.o

# The LLVM module of the library for x86-64, compiled for WebAssembly, and the page with that inside.
WEB = out/web
page: tools web-tools
	mkdir -p $(WEB)
	cd $(C_CRATE) && $(CURDIR)/web/keep_ir.sh $(CURDIR)/$(WEB)/fmtcanon.bc $(CPU_x86_64)
	web/link.sh $(WEB)/fmtcanon.bc $(WEB)/fmtcanon.wasm
	python3 web/build.py $(WEB)/fmtcanon.wasm $(WEB)/fmtcanon.html

PUBLISHED = docs/try/index.html
PUBLISHED_SUM = cd $(dir $(PUBLISHED)) && sha256sum $(notdir $(PUBLISHED)) > SHA256SUMS
try: page
	cp $(WEB)/fmtcanon.html $(PUBLISHED)
	$(PUBLISHED_SUM)

try-again:
	python3 web/build.py $(PUBLISHED) $(PUBLISHED)
	$(PUBLISHED_SUM)

# How long each part of the gate took, said where it ends, and of all of them at the end.
MINUTES = out/minutes
TIMED = tests/timed.sh $(MINUTES)

# All crates are proved once, by `rt ci`. What comes after it stands on the libraries and the program that it leaves.
test: tools c-tools
	mkdir -p $(dir $(MINUTES))
	rm -f $(MINUTES)
	python3 -m tests.mutants --recorded
	$(TIMED) $(MAKE) gate
	$(TIMED) $(MAKE) library BUILD_C='$(BUILD_C_OVER_CI)'
	$(TIMED) $(MAKE) sample
	$(TIMED) $(MAKE) tried
	@cat $(MINUTES)

# `rt ci` gives a crate back the library that another command of rt has left there, so none is to be there.
gate: tools
	rm -rf crates/*/out/rlib out/proved.txt
	RT_JOBS=$(JOBS) rt ci
	python3 -m tests.mutants.built --mark

sample: tools
	python3 -m tests.mutants --gate --jobs $(JOBS)

# As many side by side as `make -j` says, or one a processor. Each says what it printed when it ends.
SIDE_BY_SIDE = $(MAKE) -k --output-sync=target $(if $(findstring jobserver,$(MAKEFLAGS)),,-j$(JOBS))

# The tests try this program and this library, whatever the environment names. What they make of the Makefile has one job.
TRY = MAKEFLAGS= FMTCANON_PROGRAM=$(CURDIR)/$(PROGRAM) FMTCANON_LIBRARY=$(CURDIR)/$(C)/$(SONAME) python3 -m unittest -q
SUITES = tests.program tests.commands tests.library tests.packages tests.documents tests.web
tried:
	$(SIDE_BY_SIDE) tests.mutants.statements $(SUITES)

.PHONY: tests.mutants tests.mutants.statements $(SUITES)
tests.mutants tests.mutants.statements $(SUITES):
	$(TRY) $@

trials: program library
	$(SIDE_BY_SIDE) $(SUITES)

# The program and the library as the kit compiles them without a proof, with its traps. Every source is a prerequisite, since
# nothing else says what has changed. The tree goes again, since `rt ci` refuses one with symbolic links.
QUICK = out/quick
RT_SOURCES = crates.txt $(wildcard crates/*/src/*.rt crates/*/src/*/*.rt crates/*/src/*/*/*.rt)
$(QUICK)/fmtcanon: $(RT_SOURCES) $(wildcard quick/*) | tools
	mkdir -p $(QUICK)
	cd crates/fmtcanon && ../../quick/module.sh $(CURDIR)/$(QUICK)/program.bc
	quick/program.sh $(QUICK)/program.bc $@

$(QUICK)/libproved.a: $(RT_SOURCES) $(wildcard quick/*) | tools c-tools
	mkdir -p $(QUICK)
	rm -rf $(QUICK)/tree
	python3 quick/c_crate.py $(QUICK)/tree
	cd $(QUICK)/tree/crates/quick_c && $(CURDIR)/quick/module.sh $(CURDIR)/$(QUICK)/library.bc
	quick/library.sh $(QUICK)/library.bc $(QUICK)/library.o
	rm -rf $(QUICK)/tree $@
	ar rcs $@ $(QUICK)/library.o

$(QUICK)/$(SONAME): $(QUICK)/libproved.a library/join.sh library/optional_error.c
	CC="$(CC)" library/join.sh $< $(QUICK)/fmtcanon.o
	rm -f $(QUICK)/libfmtcanon.a
	ar rcs $(QUICK)/libfmtcanon.a $(QUICK)/fmtcanon.o
	$(LINK) -o $(QUICK)/libfmtcanon.so.$(VERSION) $(QUICK)/fmtcanon.o
	ln -f $(QUICK)/libfmtcanon.so.$(VERSION) $(QUICK)/libfmtcanon.so
	ln -f $(QUICK)/libfmtcanon.so.$(VERSION) $@

# The status of the program isn't that of make: a difference and a rejection are answers.
ASK = canon 'Total: %i of %u%%'
run: $(QUICK)/fmtcanon
	@$< $(ASK) || [ $$? -le 3 ]
	@echo "To ask more: make run ASK=\"same '%05d' '%.5d'\", or $<. To have the program, proved: make" >&2

# `make install` in the suites installs these files. The suite of packages is of what `make` builds: the folder of sources
# that it packs, and the program that is proved.
QUICK_SUITES = $(filter-out tests.packages,$(SUITES))
quick:
	$(SIDE_BY_SIDE) $(QUICK)/fmtcanon $(QUICK)/$(SONAME)
	$(SIDE_BY_SIDE) PROGRAM=$(QUICK)/fmtcanon C=$(QUICK) $(QUICK_SUITES)
	@echo 'Not run: proofs, mutants, and tests.packages, which is of what make builds. The gate runs them: make test'

# What the gate doesn't try is in files more_*.py.
check-more: program library $(C)/second.a page
	$(MAKE) library TARGET=aarch64
	cd $(C_CRATE) && rt lib $(CPU)
	python3 bench/paths.py $(C)
	$(TRY) tests.mutants
	$(TRY) discover -s tests -t . -p 'more_*.py'

mutants: tools
	$(TRY) tests.mutants
	python3 -m tests.mutants --jobs $(JOBS)

# A tool that is missing is named, and that fails.
tools:
	@command -v rt > /dev/null || { echo 'rt is missing: it is the command of the Rattle kit'; exit 1; }
	@command -v python3 > /dev/null || { echo 'python3 is missing: the package python3 has it'; exit 1; }
	@command -v bash > /dev/null || { echo 'bash is missing: the package bash has it'; exit 1; }

# Debian's packages of the tools for another processor have its name.
DASHED = $(if $(CROSS),-$(CROSS:%-=%))
GCC_OF = gcc$(DASHED)

c-tools:
	@command -v $(CC) > /dev/null || { echo '$(CC) is missing: the package $(GCC_OF) has it'; exit 1; }
	@for tool in ld ar objcopy nm; do command -v $(CROSS)$$tool > /dev/null || \
	    { echo "$(CROSS)$$tool is missing: the package binutils$(DASHED) has it"; exit 1; }; done

web-tools:
	@command -v wasm-opt > /dev/null || { echo 'wasm-opt is missing: the package binaryen has it'; exit 1; }

# The sources without contracts, as a package. Whoever has it needs no kit, and neither does this. A lock file would name the
# versions that the registry of this machine happens to have.
crate:
	@command -v cargo > /dev/null || { echo 'cargo is missing: rustup.rs has it'; exit 1; }
	rm -rf out/crate
	python3 cargo/make_crate.py out/crate
	cd out/crate && cargo package --no-verify --allow-dirty --exclude-lockfile
	cp out/crate/target/package/fmtcanon-$(VERSION).crate out/

# The targets below need what only `make` builds.
built:
	@for file in $(PROGRAM) $(C)/libfmtcanon.a $(SHARED); do test -f $$file || \
	    { echo "$$file is missing: make$(if $(CROSS), TARGET=$(TARGET)) builds it" >&2; exit 1; }; done

include packaging/install.mk

ARCHIVE = fmtcanon-$(VERSION)-linux-$(TARGET)
PACKED = LICENSE README.md CHANGELOG.md SECURITY.md VERSION Makefile include python/fmtcanon python/pyproject.toml \
    python/README.md man completions docs examples packaging $(PROGRAM) $(C)/libfmtcanon.a $(SHARED)

# The checksums of all packages of this version, which `sha256sum -c SHA256SUMS` compares.
CHECKSUMS = @cd out && LC_ALL=C sha256sum fmtcanon[-_]$(VERSION)-*.* > SHA256SUMS.new && mv SHA256SUMS.new SHA256SUMS

# The archive depends only on the names and bytes of the files.
dist: built
	python3 packaging/make_dist.py out/$(ARCHIVE).tar.gz $(ARCHIVE) '$(PROGRAM)' $(PACKED)
	$(CHECKSUMS)

deb: built
	packaging/make_deb.sh out $(TARGET) $(CROSS)
	$(CHECKSUMS)

wheel: built
	python3 -B packaging/make_wheel.py out $(TARGET) $(SHARED) $(PROGRAM)
	$(CHECKSUMS)

npm: $(WEB)/fmtcanon.wasm
	python3 -B packaging/make_npm.py out/fmtcanon-$(VERSION)-npm.tgz $<
	$(CHECKSUMS)

$(WEB)/fmtcanon.wasm:
	@echo "$@ is missing: make page builds it" >&2; exit 1

TABLES = out/tables.md
TABLE = FMTCANON_LIBRARY=$(C)/$(SONAME) python3 -m tests.field
tables:
	mkdir -p $(dir $(TABLES))
	set -e; { $(TABLE).catalogs; echo; $(TABLE).mutations; \
	    $(if $(SOURCES),echo; $(TABLE).checks $(SOURCES); echo; $(TABLE).sources $(SOURCES);) \
	    $(if $(RELEASES),echo; $(TABLE).releases $(RELEASES);) } > $(TABLES)
