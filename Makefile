# Builds and installs the programs, the libraries for C, their headers and the manual page. There are two builds: the
# proved one, by the Rattle toolchain, and the extracted one, by cargo, which needs no toolchain of Rattle. Build first,
# and then install. `make install` alone builds what is missing, or older than its sources, one crate after another.
# After `make -j4 all libcosvigle.so.0`, or after `make rust`, it runs no compiler but that of C: run it by sudo if
# PREFIX needs that.
#
#     make rust                                the extracted build, a minute (packaging/rust.mk)
#     make -j4                                 the proved build, sixteen to fifty minutes where nothing is proved yet
#     make cosvigle                            the program alone, proved
#     make install PREFIX=/usr DESTDIR=/tmp/x  PREFIX: /usr/local unless given; DESTDIR: put in front, for packages;
#                  LIBDIR=/usr/lib64           BINDIR, LIBDIR, INCLUDEDIR, MANDIR: below PREFIX unless given
#                  FROM=rust                   the extracted build; the proved one unless given
#     make uninstall                           removes what `make install` with the same variables installed
#     make dist, make deb, make wheel          packages of what is built, with FROM=rust of the extracted build;
#                                              packaging/packages.mk says which
#     make check                               the quick tests, without proofs; needs the toolchain
#
# BUILD is the folder for the files that are made here and installed. Unless it is given it is this one, and with
# FROM=rust out/rust.
# The shared library is linked by $(CC) $(CFLAGS) $(LDFLAGS).

PREFIX = /usr/local
BINDIR = $(PREFIX)/bin
LIBDIR = $(PREFIX)/lib
INCLUDEDIR = $(PREFIX)/include
MANDIR = $(PREFIX)/share/man
DESTDIR =
FROM = proved
BUILD = $(if $(filter rust,$(FROM)),out/rust,.)
VERSION := $(file <VERSION)
# include/cosvigle.h says under "Compatibility" when the number changes.
SONAME_NUMBER = 0
SONAME = libcosvigle.so.$(SONAME_NUMBER)
CXXABI = libcosvigle-cxxabi.so.$(SONAME_NUMBER)
OBJCOPY = objcopy

symfilter = crates/symfilter/out/symfilter
cosvigle = crates/cosvigle/out/cosvigle
library = crates/cosvigle_c/out/libcosvigle_c.a

# Of a crate, by crates.txt: those that it uses; it and all below it; its files, and those of all of these.
uses = $(shell sed -nE 's/^$(1)( staticlib)?: *(.*)/\2/p' crates.txt)
whole = $(sort $(1) $(foreach it,$(call uses,$(1)),$(call whole,$(it))))
files = crates.txt $(shell find $(wildcard $(foreach part,src specs proofs,$(1:%=crates/%/$(part)))) -name '*.rt' -o -name '*.antt')
sources = $(call files,$(call whole,$(1)))

# The libraries, and where a proved build of one is.
libraries = $(shell sed -nE 's/^([a-z_]+):.*/\1/p' crates.txt | while read -r it; do test ! -e crates/$$it/src/lib.rt || echo $$it; done)
place = crates/$(1)/out/made
built = $(foreach it,$(1),$(call place,$(it))/$(it).rlib/format)

# The toolchain, or a line where it isn't there.
needs_rt = command -v rt >/dev/null || { echo 'make: there is no command rt, of the Rattle toolchain, for the proved \
    build: make rust and make install FROM=rust do without it (README.md, "Build it")' >&2; exit 1; }

made = $(BUILD)/libcosvigle.a $(BUILD)/$(SONAME) $(BUILD)/$(CXXABI)
headers = include/cosvigle.h include/cosvigle.hpp

all: $(symfilter) $(cosvigle) $(library)

include packaging/rust.mk

# What is installed, of either build.
programs.proved = $(symfilter) $(cosvigle)
programs.rust = $(rust_programs)
ifeq ($(programs.$(FROM)),)
$(error FROM=$(FROM) isn't one of: proved rust)
endif

cosvigle: $(cosvigle)
symfilter: $(symfilter)

# Proves and builds a crate: its name, its file in src/, and what is built. It takes of the crates below it their
# statements alone, as `rt ci` does, which is a fifth less work than `rt lib` and `rt run` have. These keep more, in
# crates/*/out, and don't see what is built here. One process takes a third less of a processor than four: `make -j4`
# has several crates proved side by side.
kit = kit=$$(dirname "$$(rt doc)")
prove = mkdir -p $(place) && $(kit) && \
    "$$kit/bin/rattle" build --crate-name $(1) crates/$(1)/src/$(2).rt --jobs 1 --links $(1)= \
    --extern "std=$$kit/rlibs/std.rlib" -L "dependency=$$kit/rlibs" \
    $(foreach it,$(call uses,$(1)),--extern $(it)=$(call place,$(it))/$(it).rlib) \
    $(foreach it,$(filter-out $(1),$(call whole,$(1))),-L dependency=$(call place,$(it))) \
    --antt-project "$$kit/rattle/logic/antt-project.json" --logic-built "$$kit/logic_built" $(3)

define library_rule
$(call built,$(1)): $(call files,$(1)) $(call built,$(call uses,$(1)))
	@$$(needs_rt)
	$$(call prove,$(1),lib,--statements -o $(place)/$(1).rlib)
	touch $$@
endef
$(foreach it,$(libraries),$(eval $(call library_rule,$(it))))

# Builds the libraries below a program or a library for C. The lock is for `make -j4`, which may build several of these.
below = flock crates.txt $(MAKE) $(call built,$(call uses,$(1)))

# A program: it is proved, compiled by LLVM, linked, and run.
define program_rule
$($(1)): $(call sources,$(1))
	@$$(needs_rt)
	+$$(call below,$(1))
	$$(call prove,$(1),main,--backend llvm --toolchain "$$$$kit/toolchain" -o $(place)/$(1).o)
	$$(kit) && "$$$$kit/bin/rattle-link" --target x86_64-unknown-linux-gnu --toolchain "$$$$kit/toolchain" -o $$@ \
	    $(place)/$(1).o "$$$$kit/c/libos_c.a" "$$$$kit/c/liblibc_c.a"
	$$@ <crates/$(1)/stdin
endef
$(foreach it,symfilter cosvigle,$(eval $(call program_rule,$(it))))

$(library): $(call sources,cosvigle_c)
	@$(needs_rt)
	+$(call below,cosvigle_c)
	$(call prove,cosvigle_c,lib,--crate-type staticlib --backend llvm --toolchain "$$kit/toolchain" -o $@)

ifeq ($(FROM),rust)
# One object of what the calls need, in which no other name is left: the archives of two crates in one program would
# have names in common.
calls = $(shell sed -n 's/^ *\(cosvigle_[a-z_]*\);$$/\1/p' packaging/cosvigle.map)
$(BUILD)/libcosvigle.a: out/rust/built packaging/cosvigle.map
	$(LD) -r --gc-sections --force-group-allocation $(calls:%=-u %) --whole-archive $(rust_archive) -o $(BUILD)/cosvigle.o
	$(OBJCOPY) --strip-debug -R .llvmbc -R .llvmcmd $(calls:%=--keep-global-symbol=%) $(BUILD)/cosvigle.o
	rm -f $@
	$(AR) rcs $@ $(BUILD)/cosvigle.o
	rm $(BUILD)/cosvigle.o
else
# One archive out of the crate's and the toolchain's library where malloc is called, which each library for C needs.
$(BUILD)/libcosvigle.a: $(library)
	@$(needs_rt)
	rm -f $@
	heap=$$(dirname "$$(rt doc)")/c/liblibc_c.a && test -f "$$heap" && \
	    printf 'create $@\naddlib $(library)\naddlib %s\nsave\nend\n' "$$heap" | ar -M
endif

$(BUILD)/$(SONAME): $(BUILD)/libcosvigle.a packaging/cosvigle.map
	$(CC) $(CFLAGS) $(LDFLAGS) -shared -o $@ -Wl,-soname,$(SONAME) -Wl,--version-script=packaging/cosvigle.map \
	    -Wl,-z,defs -Wl,-z,noexecstack -Wl,--whole-archive $(BUILD)/libcosvigle.a -Wl,--no-whole-archive

$(BUILD)/$(CXXABI): packaging/cxxabi.c packaging/cxxabi.map include/cosvigle.h $(BUILD)/libcosvigle.a
	$(CC) $(CFLAGS) -O2 -fPIC $(LDFLAGS) -shared -Iinclude -o $@ -Wl,-soname,$(CXXABI) \
	    -Wl,--version-script=packaging/cxxabi.map -Wl,-z,defs -Wl,-z,noexecstack $< $(BUILD)/libcosvigle.a

# The files for pkg-config and CMake depend on the variables, and so are made where they are installed. They name no
# folder: they find the others from their own, by paths relative to LIBDIR.
from_libdir = $(shell realpath -m --relative-to=$(LIBDIR) $(1))
fill = sed -e 's|@PREFIX@|$(call from_libdir,$(PREFIX))|g' -e 's|@INCLUDEDIR@|$(call from_libdir,$(INCLUDEDIR))|g' \
    -e 's|@VERSION@|$(VERSION)|g' -e 's|@SONAME@|$(SONAME)|g'

install: $(programs.$(FROM)) $(made)
	install -d $(DESTDIR)$(BINDIR) $(DESTDIR)$(LIBDIR)/pkgconfig $(DESTDIR)$(LIBDIR)/cmake/cosvigle $(DESTDIR)$(INCLUDEDIR) \
	    $(DESTDIR)$(MANDIR)/man1
	install $(programs.$(FROM)) $(DESTDIR)$(BINDIR)
	install -m 644 docs/cosvigle.1 $(DESTDIR)$(MANDIR)/man1
	install -m 644 $(BUILD)/libcosvigle.a $(DESTDIR)$(LIBDIR)
	for it in libcosvigle libcosvigle-cxxabi; do \
	    install -m 755 $(BUILD)/$$it.so.$(SONAME_NUMBER) $(DESTDIR)$(LIBDIR)/$$it.so.$(VERSION) && \
	    ln -sf $$it.so.$(VERSION) $(DESTDIR)$(LIBDIR)/$$it.so.$(SONAME_NUMBER) && \
	    ln -sf $$it.so.$(SONAME_NUMBER) $(DESTDIR)$(LIBDIR)/$$it.so || exit 1; done
	for kind in 'cosvigle -lcosvigle' 'cosvigle-static -l:libcosvigle.a'; do \
	    $(fill) -e "s|@NAME@|$${kind% *}|" -e "s|@LINK@|$${kind#* }|" packaging/cosvigle.pc.in | \
	    install -m 644 /dev/stdin "$(DESTDIR)$(LIBDIR)/pkgconfig/$${kind% *}.pc"; done
	for file in cosvigleConfig cosvigleConfigVersion; do $(fill) "packaging/$$file.cmake.in" | \
	    install -m 644 /dev/stdin "$(DESTDIR)$(LIBDIR)/cmake/cosvigle/$$file.cmake"; done
	install -m 644 $(headers) $(DESTDIR)$(INCLUDEDIR)

uninstall:
	rm -f $(addprefix $(DESTDIR)$(BINDIR)/,symfilter cosvigle) $(DESTDIR)$(MANDIR)/man1/cosvigle.1
	rm -f $(addprefix $(DESTDIR)$(LIBDIR)/,libcosvigle.a libcosvigle.so libcosvigle.so.$(VERSION) $(SONAME))
	rm -f $(addprefix $(DESTDIR)$(LIBDIR)/,libcosvigle-cxxabi.so libcosvigle-cxxabi.so.$(VERSION) $(CXXABI))
	rm -f $(addprefix $(DESTDIR)$(LIBDIR)/pkgconfig/,cosvigle.pc cosvigle-static.pc)
	rm -f $(addprefix $(DESTDIR)$(INCLUDEDIR)/,$(notdir $(headers)))
	rm -rf $(DESTDIR)$(LIBDIR)/cmake/cosvigle

check:
	@$(needs_rt)
	.ci/quick

clean:
	rm -f $(made)

include packaging/packages.mk

.PHONY: all cosvigle symfilter install uninstall check clean
