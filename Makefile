# The commands of this repository; `make` alone lists them, and what this machine lacks for them.
RT ?= rt
PREFIX ?= /usr/local
LIBDIR ?= $(PREFIX)/lib
TO := $(DESTDIR)$(PREFIX)
LIB := $(DESTDIR)$(LIBDIR)
PROGRAM := target/vbr_run
LIBRARY := target/libvbr.a
HEADER := bindings/include/vbr.h
RELEASE := $(shell sed -n 's/^.define VBR_VERSION_M[AI][JN]OR //p' $(HEADER) | paste -sd.)
VERSION := $(RELEASE).$(shell sed -n 's/^.define VBR_VERSION_PATCH //p' $(HEADER))
SHARED := libvbr.so.$(VERSION)
CRATE := crates/vbr_main
SCRIPT := crates/vbr_example/data/phases.script
SOAK ?= 1000000000
REALTIME ?= 100000000
KILLED ?= 500
INDEX ?= 40000000
CACHES ?= 100000000
FUZZ ?= 9000000 1000000
COMPARE ?=
PREBUILT ?=
ANEW ?=
export RT ANEW PREBUILT

.DEFAULT_GOAL := help
.PHONY: help run build lib both lib-here both-here install install-lib copy-lib uninstall man docs sums prebuilt prebuilt-check check test gate docs-check clients faults soak fuzz bench plot compare clean

help:
	@echo 'make run                 play a script with three workers (before its proof; about a minute)'
	@echo 'make lib                 prove and build the library for C, C++ and Rust: $(LIBRARY), and the shared one beside it'
	@echo 'make build               prove and build the program: $(PROGRAM)'
	@echo 'make install-lib         the library with headers, pages, and what pkg-config and CMake need, below PREFIX=DIR (default: $(PREFIX))'
	@echo 'make install             the same, and the program'
	@echo '    LIBDIR=DIR           with either: the libraries go there (default: $(LIBDIR))'
	@echo '    PREBUILT=1           with either, and with clients, soak, fuzz, compare and bench: take the files of prebuilt/, and prove nothing'
	@echo 'make uninstall           take away what these put below PREFIX and LIBDIR'
	@echo 'make test                prove what library and program stand on, run all tests, clients, refused memory, kept inputs'
	@echo 'make check               for daily work: what has changed, the tests, the programs, edits of changed crates'
	@echo 'make gate                the whole: every proof from nothing, those of tests too, edits that must be refused, the second compiler'
	@echo '    ANEW=1               also what an earlier gate on this machine passed, of the same text'
	@echo 'make man                 write the man pages: target/man'
	@echo 'make docs                write the man pages, and the pages of doxygen and rustdoc where these are installed'
	@echo 'make docs-check          see that documents are true to the tree, that contracts have their form, and that files are as tools/interface makes them'
	@echo 'make clients             build and run the clients in C and Rust over the library'
	@echo 'make faults              refuse memory call by call, and try the program in a shell: statuses, streams, memory'
	@echo 'make soak                a thousand million calls of four threads on set after set, and as many on maps, each answer balanced;'
	@echo '                         a hundred million of each in an order that keeps to real time; and over 30,000 kills of processes'
	@echo 'make fuzz                ten million random inputs for the library and the program, on all processors'
	@echo 'make compare             sets, maps and caches of the library beside libcds, liburcu, crossbeam-epoch, dashmap and locks'
	@echo 'make bench, make plot    the same in its short form, with fewer sizes and runs'
	@echo 'make sums                prove and build, and write what came of it into prebuilt/SHA256SUMS, for a branch'
	@echo 'make prebuilt            the same, and put the library and the program into prebuilt/, for what lands'
	@echo 'make clean               remove what was built and what checks keep'
	@tools/needs

run:
	@tools/needs run
	@echo 'compiling, and playing $(SCRIPT)'
	@mkdir -p target
	@cd $(CRATE) && $(RT) try -- --workers 3 < ../../$(SCRIPT) 2> ../../target/run.log || { cat ../../target/run.log >&2; exit 1; }
	@echo 'played well, before its proof; `make build` proves the program'

# What was proved, from crates/*/out to target/.
define library
@tools/archive $(LIBRARY)
@tools/package
@echo 'the proved library: $(LIBRARY), with $(HEADER)'
@tools/prebuilt --compare $(LIBRARY)
endef
define program
@mkdir -p target && cp $(CRATE)/out/vbr_main $(PROGRAM)
@echo 'the proved program: $(PROGRAM)'
@tools/prebuilt --compare $(PROGRAM)
endef

lib:
	@tools/needs lib
	@tools/lanes vbr_c
	$(library)

build:
	@tools/needs build
	@tools/lanes vbr_main
	$(program)

both:
	@tools/needs install
	@tools/lanes vbr_c vbr_main
	$(library)
	$(program)

prebuilt-check:
	@tools/needs prebuilt-check
	@tools/prebuilt --check

# What is installed is in target/, or in prebuilt/; what clients link is in target/, put there from prebuilt/ or proved and built.
ifeq ($(PREBUILT),1)
FROM := prebuilt
PROVED := prebuilt-check
lib-here both-here: prebuilt-check
	@mkdir -p target && cp prebuilt/libvbr.a $(LIBRARY) && cp prebuilt/vbr_run $(PROGRAM)
	@tools/package
else
FROM := target
PROVED := $(if $(filter install,$(MAKECMDGOALS)),both,lib)
lib-here: lib
both-here: both
endif

install-lib: $(PROVED)
	@$(MAKE) --no-print-directory copy-lib FROM=$(FROM)

# What is built already is put into place, and nothing is proved.
copy-lib: man
	@tools/package $(FROM)/libvbr.a
	@install -d '$(LIB)/pkgconfig' '$(LIB)/cmake/vbr' '$(TO)/include' '$(TO)/share/man/man3'
	@install -m 644 $(FROM)/libvbr.a '$(LIB)/libvbr.a'
	@if [ -e target/$(SHARED) ]; then install -m 755 target/$(SHARED) '$(LIB)/$(SHARED)' && \
	    ln -sf $(SHARED) '$(LIB)/libvbr.so.$(RELEASE)' && ln -sf libvbr.so.$(RELEASE) '$(LIB)/libvbr.so'; fi
	@install -m 644 bindings/include/* '$(TO)/include'
	@install -m 644 target/man/man3/* '$(TO)/share/man/man3'
	@for it in vbr:-lvbr vbr-static:-l:libvbr.a; do \
	    sed "s|@PREFIX@|$(abspath $(PREFIX))|; s|@LIBDIR@|$(patsubst $(abspath $(PREFIX))/%,\$${prefix}/%,$(abspath $(LIBDIR)))|; s|@NAME@|$${it%%:*}|; s|@LINKS@|$${it#*:}|" \
	    bindings/vbr.pc.in > '$(LIB)/pkgconfig/'$${it%%:*}.pc; done
	@headers=$$(realpath -m --relative-to='$(LIBDIR)/cmake/vbr' '$(PREFIX)/include'); for it in vbrConfig vbrConfigVersion; do \
	    sed "s|@VERSION@|$(VERSION)|g; s|@RELEASE@|$(RELEASE)|g; s|@HEADERS@|$$headers|" bindings/cmake/$$it.cmake.in > '$(LIB)/cmake/vbr/'$$it.cmake; done
	@echo 'installed: the library in $(LIB), headers in $(TO)/include, pages in $(TO)/share/man'

install: install-lib
	@install -d '$(TO)/bin' '$(TO)/share/man/man1'
	@install -m 755 $(FROM)/vbr_run '$(TO)/bin/vbr_run'
	@install -m 644 target/man/man1/vbr_run.1 '$(TO)/share/man/man1'
	@echo 'installed in $(TO): bin/vbr_run'

# What install and install-lib put into place, by this version.
uninstall: man
	@rm -f '$(LIB)/libvbr.a' '$(LIB)/$(SHARED)' '$(LIB)/libvbr.so.$(RELEASE)' '$(LIB)/libvbr.so' '$(LIB)/pkgconfig/vbr.pc' '$(LIB)/pkgconfig/vbr-static.pc'
	@rm -f '$(LIB)/cmake/vbr/vbrConfig.cmake' '$(LIB)/cmake/vbr/vbrConfigVersion.cmake' '$(TO)/bin/vbr_run' '$(TO)/share/man/man1/vbr_run.1'
	@rm -f $(patsubst bindings/include/%,'$(TO)/include/%',$(wildcard bindings/include/*))
	@cd target/man/man3 && for it in *; do rm -f '$(TO)/share/man/man3/'"$$it"; done
	@[ ! -d '$(LIB)/cmake/vbr' ] || rmdir --ignore-fail-on-non-empty '$(LIB)/cmake/vbr'
	@echo 'taken away from $(TO) and $(LIB): the library, its headers and pages, and bin/vbr_run'

man:
	@tools/needs man
	@tools/man target/man

docs: man
	@tools/needs docs
	@tools/docs

sums: both
	@tools/prebuilt --sums

prebuilt: both
	@tools/prebuilt

docs-check:
	@tools/needs docs-check
	@tools/docs-check
	@tools/interface --gate

check:
	@tools/needs check
	@tools/docs-check
	@tools/interface --gate
	@tools/check

test:
	@tools/needs test
	@tools/docs-check
	@tools/interface --gate
	@tools/layout
	@tools/test

gate:
	@tools/needs gate
	@rm -f target/libvbr.so* # rt ci takes no links, and the library is built anew
	@tools/docs-check
	@tools/interface --gate
	@tools/layout
	@RT_JOBS="$${RT_JOBS:-$$(getconf _NPROCESSORS_ONLN)}" $(RT) ci $(if $(filter 1,$(ANEW)),--anew)
	@tools/after-gate
	@tools/prebuilt --gate
	@echo 'make gate: ok'

clients:
	@tools/needs clients
	@$(MAKE) --no-print-directory lib-here
	@bindings/headers
	@bindings/test

faults: build
	@tools/needs faults
	@tools/lanes --tests vbr_set_tests
	@tests/faults

soak:
	@tools/needs soak
	@echo 'make soak: proves the library first, unless it is or PREBUILT=1; then the calls begin'
	@$(MAKE) --no-print-directory lib-here
	@$(MAKE) --no-print-directory --silent -C bindings soak realtime killed cpp_sharded cpp_caches
	@target/clients/soak-sets $(SOAK)
	@target/clients/soak-maps $(SOAK)
	@target/clients/realtime sets $(REALTIME)
	@target/clients/realtime maps $(REALTIME)
	@target/clients/killed order $(KILLED)
	@target/clients/killed balance $(KILLED)
	@target/clients/cpp_sharded index $(INDEX)
	@target/clients/cpp_caches $(CACHES)

fuzz:
	@tools/needs fuzz
	@echo 'make fuzz: proves the library and the program first, unless they are or PREBUILT=1; then the inputs begin'
	@$(MAKE) --no-print-directory both-here
	@tests/fuzz/run $(FUZZ)

compare bench plot:
	@tools/needs $@
	@echo 'make $@: proves the library first, unless it is or PREBUILT=1; then it measures'
	@$(MAKE) --no-print-directory lib-here
	@bench/compare/run $(if $(filter compare,$@),,--short) $(COMPARE)

clean:
	@rm -rf target crates/*/out
