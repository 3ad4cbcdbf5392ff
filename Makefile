# What people type. What is proved needs rt, the command of the Rattle kit, and python3; what is plain Rust needs cargo; the
# library for C and the tests need cc and python3 too.
#
#   make example                          shows examples/cidr/questions.txt with the answers of cidr as plain Rust or, if
#                                         there is no cargo, of the proved one
#   make plain                            builds the five programs and the library for C as plain Rust, in rust/target
#   make test                             the same, and the tests by their scripts, as tests/verdict says
#   make check                            the same, and a part of the tests, for a first verdict
#   make proved                           proves and builds cidr, and shows the example by it
#   make                                  proves and builds the five programs and the library for C
#   make test-proved                      the same, and then every test of what is proved
#   make try                              shows the example by a program that is not proved, and not kept
#   make sqlite                           builds the extension of SQLite over the library for C that is built
#   make wasm                             proves the library for C for WebAssembly, and builds its modules
#   make js                               builds the package for JavaScript, of the module that make wasm makes; with PLAIN=1
#                                         of plain Rust, which is built for WebAssembly
#   make go                               writes the package for Go as a module, which can be vendored, with the libraries for
#                                         Linux that are built, or with the one of cargo; into bindings/out/go
#   make calculator                       does both, and writes the page web/out/subnets.html over the package
#   make docs                             writes a site of the pages, the manual pages, rustdoc of the crates and the calculator,
#                                         if that is built, to be read from a disk; into docs/out
#   make arm64                            proves the library for C and the programs for Linux on ARM64, and builds them, the
#                                         wheel for Python and the extension of SQLite; into bindings/out/aarch64
#   make static                           links the programs that are built once more, with the C library in each, so that
#                                         they need no file where they run; into bindings/out/static
#   make install PREFIX=/usr DESTDIR=package
#                                         installs what is built: the programs, their manual pages and completions, the
#                                         library for C with its header, and the extension of SQLite; with STATIC=1 the
#                                         programs of make static
#   make uninstall PREFIX=/usr DESTDIR=package
#   make deb                              Debian packages of what is built, in bindings/out/deb
#   make dist                             the files of a release, of what is proved, in the folder dist: archives and packages for
#                                         Linux on x86-64 and ARM64, wheels, crates and more, with checksums (scripts/dist)
#   make dist-plain                       the same as plain Rust, which is built for it
#   make tools                            installs the packages of Debian that tests need (tests/debian-packages.txt)
#   make check-install                    installs into a new folder, compiles the example of C there and removes it again
#
# PREFIX is where the files are looked for when they are used, DESTDIR what comes before it while they are copied.
#
# make install, deb, shared and sqlite take the proved programs, unless fewer of them are built than plain ones, and the
# proved library for C, unless only the plain one is built; PLAIN=1 takes what is plain Rust, PLAIN= what is proved.

PREFIX = /usr/local
LIBDIR = $(PREFIX)/lib
SQLITEDIR = $(LIBDIR)/sqlite3
INCLUDEDIR = $(PREFIX)/include
BINDIR = $(PREFIX)/bin
MANDIR = $(PREFIX)/share/man
BASHDIR = $(PREFIX)/share/bash-completion/completions
ZSHDIR = $(PREFIX)/share/zsh/site-functions
FISHDIR = $(PREFIX)/share/fish/vendor_completions.d
SCRIPTDIR = $(PREFIX)/share/fosibegan
# Not every shell replaces the ~ of PREFIX=~/.local.
override PREFIX := $(PREFIX:~/%=$(HOME)/%)
DESTDIR =
INSTALL = install

# IPNETWORK_ABI_VERSION and IPNETWORK_ABI_MINOR_VERSION of bindings/c/ipnetwork.h
MAJOR := $(shell sed -n 's/^.define IPNETWORK_ABI_VERSION //p' bindings/c/ipnetwork.h)
MINOR := $(shell sed -n 's/^.define IPNETWORK_ABI_MINOR_VERSION //p' bindings/c/ipnetwork.h)
VERSION = $(MAJOR).$(MINOR)
OUT = bindings/out
PLAIN_OUT = rust/target/release
PROVED_ARCHIVE = crates/ipnetwork_c/out/libipnetwork_c.a
PLAIN_ARCHIVE = $(PLAIN_OUT)/libipnetwork_c.a
ARCHIVE = $(if $(PLAIN_LIBRARY),$(PLAIN_ARCHIVE),$(PROVED_ARCHIVE))
SHARED = $(OUT)/libipnetwork_c.so.$(VERSION)
SONAME = libipnetwork_c.so.$(MAJOR)
EXTENSION = $(OUT)/cidr.so
PROGRAMS = cidr cidr_merge cidr_filter cidr_join cidr_info
# The scripts that cut a large input in parts, and what they share; and lines of formats of logs.
SCRIPTS = cidr/in_parts.sh cidr/find_in_parts.sh cidr_merge/in_parts.sh cidr_filter/in_parts.sh cidr_join/in_parts.sh \
    cidr_filter/log_formats.tsv
SHARED_SCRIPTS = program.sh parts.sh log_in_parts.sh
# The folder of the kit, if the first rt of the PATH is that of a kit.
KIT ?= $(shell command -v rt > /dev/null && dirname "$$(dirname "$$(readlink -f "$$(command -v rt)")")")
# Not empty if the plain programs are taken, and the plain library for C.
ifeq ($(origin PLAIN)$(STATIC)$(ARM64),undefined)
PROVED_PROGRAMS := $(wildcard $(foreach program,$(PROGRAMS),crates/$(program)/out/$(program)))
PLAIN_PROGRAMS := $(word $(words one_more $(PROVED_PROGRAMS)),$(wildcard $(addprefix $(PLAIN_OUT)/,$(PROGRAMS))))
PLAIN_LIBRARY := $(if $(wildcard $(PROVED_ARCHIVE)),,$(wildcard $(PLAIN_ARCHIVE)))
else
PLAIN_PROGRAMS = $(PLAIN)
PLAIN_LIBRARY = $(PLAIN)
endif
kind = $(if $(1),plain Rust (not proved),proved)
# The file of a program that is installed, and the programs that have one.
built = $(if $(PLAIN_PROGRAMS),$(PLAIN_OUT),$(if $(STATIC),$(OUT)/static,crates/$(1)/out))/$(1)
programs_there = $(strip $(foreach program,$(PROGRAMS),$(if $(wildcard $(call built,$(program))),$(program))))

.PHONY: all example proved plain test check test-proved try library shared sqlite wasm js calculator static install install-scripts install-library uninstall deb \
    check-install

# Says which library for C is taken for a file, and notes it in FILE.kind, which make install reads.
over_library = @[ -f $(ARCHIVE) ] || { echo "make $@ needs $(ARCHIVE)," \
    "which make $(if $(PLAIN_LIBRARY),plain,library (or, for plain Rust, make plain)) builds" >&2; exit 1; }; \
    mkdir -p $(dir $(1)) && rm -f $(1) && echo "$(call kind,$(PLAIN_LIBRARY)) $$(cksum < $(ARCHIVE))" > $(1).kind && \
    echo "make $@: of $(ARCHIVE), which is $(call kind,$(PLAIN_LIBRARY))" >&2

# Says by name what is not here, before anything is proved.
tools = @missing=; for tool in $(1); do command -v $$tool > /dev/null || missing="$$missing $$tool"; done; \
    [ -z "$$missing" ] || { echo "make $@ needs what is not here:$$missing (README, Install)" >&2; exit 1; }

all:
	$(call tools,rt python3 cc)
	scripts/prove $(PROGRAMS) ipnetwork_c
	$(MAKE) PLAIN= shared

example:
	@if command -v cargo > /dev/null || ! command -v rt > /dev/null; then \
	    scripts/build_plain cidr && scripts/example $(PLAIN_OUT)/cidr && \
	    echo "This is plain Rust, made of the proved sources; make proved proves the program, by rt." >&2; \
	else \
	    $(MAKE) proved; \
	fi

proved:
	$(call tools,rt python3)
	scripts/prove cidr
	scripts/example crates/cidr/out/cidr

plain:
	$(call tools,cc)
	scripts/build_plain
	$(MAKE) PLAIN=1 shared

test:
	$(call tools,python3)
	@scripts/least_rust cidr_merge ipnetwork ipnetwork_c
	@tests/verdict test

check:
	$(call tools,python3)
	@scripts/least_rust cidr_merge ipnetwork ipnetwork_c
	@tests/verdict check

test-proved: all
	@tests/verdict proved

try:
	$(call tools,rt)
	cd crates/cidr && ../../scripts/example rt try

library:
	$(call tools,rt python3 cc)
	scripts/prove ipnetwork_c
	$(MAKE) PLAIN= shared

# How a shared library is linked: with no symbols but those that it exports, which are bound as it is loaded, and with
# nothing that they do not need.
LINKED = -shared -s -Wl,--gc-sections -Wl,-z,relro -Wl,-z,now -Wl,--no-undefined

# The shared library, of the static one that is there. It exports the functions of the header.
shared:
	$(call over_library,$(SHARED))
	bindings/c/names --map > $(SHARED).map
	cc $(LINKED) -Wl,-soname,$(SONAME) -Wl,--version-script=$(SHARED).map \
	    -Wl,--whole-archive $(ARCHIVE) -Wl,--no-whole-archive -o $(SHARED)
	rm $(SHARED).map

# The extension of SQLite, of the static library that is there. It needs sqlite3ext.h (Debian: libsqlite3-dev).
sqlite:
	$(call over_library,$(EXTENSION))
	cc -std=c11 -O2 -Wall -Wextra -fPIC -fvisibility=hidden $(LINKED) -I bindings/c bindings/sqlite/cidr.c $(ARCHIVE) \
	    -Wl,--exclude-libs,ALL -o $(EXTENSION)

# The library for C as WebAssembly. It needs wasm-opt and wasm-metadce (Debian: binaryen). What is proved here first is
# taken over, so that a later run proves only what changed.
wasm:
	$(call tools,rt python3 wasm-opt wasm-metadce)
	scripts/prove ipnetwork_c
	bindings/wasm/build

# The package for JavaScript, of the library as WebAssembly that is there, or with PLAIN=1 of plain Rust.
js:
	$(call tools,node $(if $(PLAIN),python3 wasm-opt wasm-metadce))
	$(if $(PLAIN),bindings/wasm/build --plain)
	rm -rf $(OUT)/js
	node bindings/js/build.mjs $(OUT)/ipnetwork_js$(if $(PLAIN),_plain).wasm $(OUT)/js

# The package for Go with its libraries, as scripts/go_module says.
.PHONY: go
go:
	$(call tools,python3)
	scripts/go_module

# A subnet calculator in one page that works from a disk.
calculator:
	$(call tools,rt python3 wasm-opt wasm-metadce node)
	$(MAKE) wasm
	$(MAKE) js
	web/build

# The site of all pages, with a search.
.PHONY: docs
docs:
	$(call tools,python3 pandoc cargo)
	scripts/docs

# Of the object files that rt leaves next to the programs, and of the kit's archives.
static:
	$(call tools,$(if $(KIT),cc,rt cc))
	@missing=; for file in "$(KIT)/c/libos_c.a" "$(KIT)/c/liblibc_c.a" "$$(cc -print-file-name=libc.a)"; do \
	    [ -f "$$file" ] || missing="$$missing $$file"; done; \
	[ -z "$$missing" ] || { echo "make static needs what is not here:$$missing (make static KIT=FOLDER; bindings/README.md)" >&2; exit 1; }
	@mkdir -p $(OUT)/static; made=; for program in $(PROGRAMS); do \
	    object=crates/$$program/out/$$program.o; \
	    if [ -f $$object ]; then \
	        cc -static -o $(OUT)/static/$$program $$object "$(KIT)/c/libos_c.a" "$(KIT)/c/liblibc_c.a" || exit 1; \
	        made=yes; echo $(OUT)/static/$$program; \
	    else \
	        rm -f $(OUT)/static/$$program; \
	        echo "make static: without $$program, since there is no $$object: run make first" >&2; \
	    fi; \
	done; [ "$$made" ]

# Copies what is built, and builds nothing but completions. What could stop it is looked at before the first file is copied.
install:
	@[ -n "$(programs_there)$(wildcard $(ARCHIVE) $(EXTENSION))" ] || { \
	    echo "make install: nothing $(if $(filter-out undefined,$(origin PLAIN)),of this build )is built: run make plain first, or make, which proves and needs rt" >&2; exit 1; }
	@for made in shared:$(SHARED) sqlite:$(EXTENSION); do \
	    file=$${made#*:}; [ ! -f $$file ] || [ ! -f $$file.kind ] || [ ! -f $(ARCHIVE) ] || \
	    [ "$$(cat $$file.kind)" = "$(call kind,$(PLAIN_LIBRARY)) $$(cksum < $(ARCHIVE))" ] || { \
	        echo "make install: $$file is not of the same build as $(ARCHIVE): run make $${made%%:*}, or remove $$file" >&2; \
        exit 1; }; \
	done
	@scripts/writable "$(DESTDIR)$(BINDIR)" "$(DESTDIR)$(MANDIR)/man1" "$(DESTDIR)$(BASHDIR)" "$(DESTDIR)$(ZSHDIR)" \
	    "$(DESTDIR)$(FISHDIR)" "$(DESTDIR)$(SCRIPTDIR)" "$(DESTDIR)$(SQLITEDIR)" "$(DESTDIR)$(INCLUDEDIR)" \
	    "$(DESTDIR)$(LIBDIR)/pkgconfig" || { \
	    echo "make install: run sudo make install, or make install PREFIX=~/.local, or name another PREFIX" >&2; exit 1; }
	@echo "make install:$(if $(programs_there), programs: $(call kind,$(PLAIN_PROGRAMS));)$(if \
	    $(and $(wildcard $(ARCHIVE)),$(wildcard $(SHARED))), library for C: $(call kind,$(PLAIN_LIBRARY)))" >&2
	@completions=$$(mktemp -d) && trap 'rm -rf "$$completions"' EXIT && scripts/completions "$$completions" || exit 1; \
	for program in $(PROGRAMS); do \
	    if [ -f $(call built,$$program) ]; then \
	        $(INSTALL) -d "$(DESTDIR)$(BINDIR)" "$(DESTDIR)$(MANDIR)/man1" && \
	        $(INSTALL) -m 755 $(call built,$$program) "$(DESTDIR)$(BINDIR)/$$program" && \
	        $(INSTALL) -m 644 docs/man/$$program.1 "$(DESTDIR)$(MANDIR)/man1/$$program.1" && \
	        $(INSTALL) -d "$(DESTDIR)$(BASHDIR)" "$(DESTDIR)$(ZSHDIR)" "$(DESTDIR)$(FISHDIR)" && \
	        $(INSTALL) -m 644 "$$completions/$$program.bash" "$(DESTDIR)$(BASHDIR)/$$program" && \
	        $(INSTALL) -m 644 "$$completions/$$program.zsh" "$(DESTDIR)$(ZSHDIR)/_$$program" && \
	        $(INSTALL) -m 644 "$$completions/$$program.fish" "$(DESTDIR)$(FISHDIR)/$$program.fish" || exit 1; \
	    else \
	        echo "make install: without $$program, which is not $(if $(STATIC),linked by make static,built)" >&2; \
	    fi; \
	done
	@$(if $(programs_there),$(MAKE) -s install-scripts)
	@if [ -f $(EXTENSION) ]; then \
	    $(INSTALL) -d "$(DESTDIR)$(SQLITEDIR)" && \
	    $(INSTALL) -m 755 $(EXTENSION) "$(DESTDIR)$(SQLITEDIR)/cidr.so" || exit 1; \
	fi
	@if [ -f $(ARCHIVE) ] && [ -f $(SHARED) ]; then \
	    $(MAKE) -s install-library; \
	else \
	    echo "make install: without the library for C: run make $(if $(wildcard $(ARCHIVE)),shared,plain or make library)" >&2; \
	fi
	@$(if $(DESTDIR),,case ":$$PATH:" in (*":$(BINDIR):"*) ;; \
	    (*) echo "make install: the programs are now in $(BINDIR), which is not on your PATH" >&2 ;; esac)

install-scripts:
	@for script in $(SCRIPTS) $(SHARED_SCRIPTS); do \
	    $(INSTALL) -d "$(DESTDIR)$(SCRIPTDIR)/$$(dirname $$script)" && \
	    $(INSTALL) -m $$(test -x examples/$$script && echo 755 || echo 644) examples/$$script \
	        "$(DESTDIR)$(SCRIPTDIR)/$$script" || exit 1; \
	done

install-library:
	$(INSTALL) -d "$(DESTDIR)$(INCLUDEDIR)" "$(DESTDIR)$(LIBDIR)/pkgconfig"
	$(INSTALL) -m 644 bindings/c/ipnetwork.h "$(DESTDIR)$(INCLUDEDIR)/ipnetwork.h"
	$(INSTALL) -m 644 $(ARCHIVE) "$(DESTDIR)$(LIBDIR)/libipnetwork_c.a"
	$(if $(PLAIN_LIBRARY),bindings/c/one_object "$(DESTDIR)$(LIBDIR)/libipnetwork_c.a")
	$(INSTALL) -m 755 $(SHARED) "$(DESTDIR)$(LIBDIR)/libipnetwork_c.so.$(VERSION)"
	ln -sf libipnetwork_c.so.$(VERSION) "$(DESTDIR)$(LIBDIR)/$(SONAME)"
	ln -sf $(SONAME) "$(DESTDIR)$(LIBDIR)/libipnetwork_c.so"
	sed -e 's|@PREFIX@|$(PREFIX)|' -e 's|@LIBDIR@|$(LIBDIR)|' -e 's|@INCLUDEDIR@|$(INCLUDEDIR)|' -e 's|@VERSION@|$(VERSION)|' \
	    bindings/c/ipnetwork.pc.in > "$(DESTDIR)$(LIBDIR)/pkgconfig/ipnetwork.pc"
	chmod 644 "$(DESTDIR)$(LIBDIR)/pkgconfig/ipnetwork.pc"

uninstall:
	rm -f "$(DESTDIR)$(INCLUDEDIR)/ipnetwork.h" "$(DESTDIR)$(LIBDIR)/pkgconfig/ipnetwork.pc"
	rm -f "$(DESTDIR)$(LIBDIR)/libipnetwork_c.a" "$(DESTDIR)$(LIBDIR)/libipnetwork_c.so" "$(DESTDIR)$(LIBDIR)/$(SONAME)"
	rm -f "$(DESTDIR)$(LIBDIR)/libipnetwork_c.so.$(VERSION)" "$(DESTDIR)$(SQLITEDIR)/cidr.so"
	@for program in $(PROGRAMS); do \
	    rm -f "$(DESTDIR)$(BINDIR)/$$program" "$(DESTDIR)$(MANDIR)/man1/$$program.1" "$(DESTDIR)$(BASHDIR)/$$program"; \
	    rm -f "$(DESTDIR)$(ZSHDIR)/_$$program" "$(DESTDIR)$(FISHDIR)/$$program.fish"; \
	done
	@for script in $(SCRIPTS) $(SHARED_SCRIPTS); do rm -f "$(DESTDIR)$(SCRIPTDIR)/$$script"; done
	@for program in $(PROGRAMS); do rmdir "$(DESTDIR)$(SCRIPTDIR)/$$program" 2> /dev/null || true; done
	@rmdir "$(DESTDIR)$(SCRIPTDIR)" 2> /dev/null || true

.PHONY: deb
deb:
	$(call tools,python3 $(if $(ARM64),aarch64-linux-gnu-gcc,cc objdump) dpkg-deb)
	@$(if $(and $(programs_there),$(wildcard $(ARCHIVE))),[ "$(if $(PLAIN_PROGRAMS),1)" = "$(if $(PLAIN_LIBRARY),1)" ],true) || { \
	    echo "make deb: programs and library for C are not of one build: run make deb PLAIN=1 for plain Rust, or make deb PLAIN= for what is proved" >&2; \
	    exit 1; }
	scripts/deb $(if $(ARM64),$(OUT)/deb/arm64 arm64,$(OUT)/deb $(if $(PLAIN_PROGRAMS)$(PLAIN_LIBRARY),--plain))

# With LOGS=FOLDER, that of .ci/full --resume, the logs are released too, and PROVED.txt has their verdicts.
.PHONY: dist dist-plain tools
dist:
	$(call tools,python3 git cc)
	scripts/dist --whole $(if $(LOGS),--logs '$(LOGS)')

dist-plain:
	$(call tools,python3 git cc cargo)
	scripts/dist --plain $(if $(LOGS),--logs '$(LOGS)')

tools:
	scripts/tools

check-install:
	bindings/check_install

# Linux on ARM64: make arm64 proves the library for C and the programs for it, and builds them, the wheel for Python and
# the extension of SQLite, into bindings/out/aarch64. make install and make deb take what is there, with ARM64=1; with
# STATIC=1 too, make install takes the programs that have glibc in them.
.PHONY: arm64
arm64:
	$(call tools,rt python3 aarch64-linux-gnu-gcc)
	scripts/prove $(PROGRAMS) ipnetwork_c
	scripts/arm64

ifdef ARM64
ARCHIVE = $(OUT)/aarch64/libipnetwork_c.a
SHARED = $(OUT)/aarch64/libipnetwork_c.so.$(VERSION)
EXTENSION = $(OUT)/aarch64/cidr.so
built = $(OUT)/aarch64/$(if $(STATIC),static/)$(1)
endif
