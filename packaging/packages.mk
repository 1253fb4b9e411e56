# Packages for Linux on x86-64: of the proved build, or with FROM=rust of that by `make rust`. Makefile includes this
# file. Nothing is built here: if the programs or the library aren't built, or are older than their sources, one line
# says so.
#
#     make dist        a tar.gz with one folder, which may lie anywhere
#     make deb         three packages for Debian: cosvigle, libcosvigle0 and libcosvigle-dev
#     make wheel       a wheel for Python, with the module and the shared library
#     make packages    all of these
#
# They go to PACKAGES, where SHA256SUMS names all packages. Those of the build as plain Rust have the word rust in their
# version. The same build gives packages with the same bytes: the time of each file is SOURCE_DATE_EPOCH, which is that
# of the last commit unless given. Without git it is the first second of 1980, the earliest that a wheel can hold.
# Debian's format asks for a maintainer: if you hand packages on, put your own name and address into MAINTAINER. No
# package is kept in the repository: those of the proved build hold compiled parts of the toolchain's library, and this
# repository states no terms for these.

PACKAGES = out/packages
MAINTAINER = Nobody <nobody@example.invalid>
STRIP = strip

comma = ,
triplet = x86_64-linux-gnu
distribution = cosvigle-$(VERSION)$(if $(filter rust,$(FROM)),-rust)-$(triplet)
epoch = $(or $(SOURCE_DATE_EPOCH),$(shell git log -1 --format=%ct 2>/dev/null),315532800)
tree = $(PACKAGES)/tree
guides = README.md examples/c/names.c examples/cpp/names.cc \
    $(addprefix docs/,USE.md MIGRATING.md DIFFERENCES.md LIMITS.md GRAMMAR.md PROOF.md PROMISES.md BELIEVE.md) \
    $(addprefix docs/port/,GRAMMAR.md DIFFERENCES.md PROMISES.md)

# The commands that a kind of package needs, each with the package of Debian that brings it.
needed = realpath:coreutils flock:util-linux $(STRIP):binutils objdump:binutils
needed_dist = tar:tar gzip:gzip
needed_deb = dpkg-deb:dpkg gzip:gzip
needed_wheel = python3:python3
refuse = { echo "make: $(1)" >&2; exit 1; }

# What packages are made of, and how it is built.
packed.proved = all
first.proved = make -j4 all
packed.rust = out/rust/built
first.rust = make rust

# One kind is made at a time, since all of them use the files below BUILD.
dist deb wheel:
	@for it in $(needed) $(needed_$@); do command -v "$${it%:*}" >/dev/null || \
	    $(call refuse,there is no command $${it%:*}$(comma) which 'make $@' needs: install the package $${it#*:}); done
	@$(MAKE) -q $(packed.$(FROM)) >/dev/null 2>&1 || \
	    $(call refuse,the programs or the library aren't built$(comma) or are older than their sources: \
	    run '$(first.$(FROM))')
	@mkdir -p $(PACKAGES)
	@flock packaging/packages.mk $(MAKE) --no-print-directory packed-$@

packages: dist deb wheel

# The variables of `make install` for a prefix below `tree`, and for a folder of libraries below the prefix.
places = DESTDIR=$(abspath $(tree)) PREFIX=$(1) BINDIR=$(1)/bin LIBDIR=$(1)/$(2) INCLUDEDIR=$(1)/include \
    MANDIR=$(1)/share/man

# Strips what was installed there. The names of compilers go too, as Debian has it.
strip = $(STRIP) --remove-section=.comment
define stripped
	$(strip) $(tree)$(1)/bin/cosvigle $(tree)$(1)/bin/symfilter
	$(strip) --strip-unneeded $(tree)$(1)/$(2)/libcosvigle.so.$(VERSION) $(tree)$(1)/$(2)/libcosvigle-cxxabi.so.$(VERSION)
	$(strip) --strip-debug $(tree)$(1)/$(2)/libcosvigle.a
endef

# Gives the files of a folder modes and times that are the same on each machine.
settled = chmod -R u=rwX,go=rX $(1) && find $(1) -exec touch -hd @$(epoch) {} +

# Moves the packages of a kind to PACKAGES, and makes the sums anew.
define moved
	mv $(1) $(PACKAGES)
	rm -rf $(tree)
	cd $(PACKAGES) && find . -maxdepth 1 -name '*cosvigle*' -printf '%P\n' | LC_ALL=C sort | xargs sha256sum >SHA256SUMS
endef

packed-dist:
	rm -rf $(tree)
	$(MAKE) --no-print-directory install $(call places,/opt/$(distribution),lib)
	$(call stripped,/opt/$(distribution),lib)
	install -d $(tree)/opt/$(distribution)/share/doc/cosvigle
	cp --parents $(guides) LICENSE CHANGELOG.md $(tree)/opt/$(distribution)/share/doc/cosvigle
	$(call settled,$(tree))
	tar -C $(tree)/opt --format=ustar --sort=name --owner=0 --group=0 --numeric-owner -cf - $(distribution) | \
	    gzip -9n >$(tree)/$(distribution).tar.gz
	$(call moved,$(tree)/$(distribution).tar.gz)

packed-deb: export MAINTAINER := $(MAINTAINER)
packed-deb:
	rm -rf $(tree)
	$(MAKE) --no-print-directory install $(call places,/usr,lib/$(triplet))
	$(call stripped,/usr,lib/$(triplet))
	install -d $(tree)/usr/share/doc/cosvigle
	cp --parents $(guides) $(tree)/usr/share/doc/cosvigle
	SOURCE_DATE_EPOCH=$(epoch) packaging/deb $(tree) $(VERSION) $(SONAME_NUMBER) $(FROM)
	$(call moved,$(tree)/*.deb)

packed-wheel: $(BUILD)/$(SONAME)
	rm -rf $(tree)
	install -D $(BUILD)/$(SONAME) $(tree)/$(SONAME)
	$(strip) --strip-unneeded $(tree)/$(SONAME)
	SOURCE_DATE_EPOCH=$(epoch) packaging/wheel $(tree)/$(SONAME) $(VERSION) "$$(packaging/glibc $(tree)/$(SONAME))" \
	    $(tree) $(FROM)
	$(call moved,$(tree)/*.whl)

clean: clean-packages
clean-packages:
	rm -rf $(PACKAGES)

.PHONY: dist deb wheel packages packed-dist packed-deb packed-wheel clean-packages
