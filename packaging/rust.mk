# The extracted crate, in out/rust: its programs, and the library for C over it. They need Python 3 and Rust 1.88 or
# later, and no Rattle toolchain.
#
#     make rust            writes and builds the crate, and the libraries for C over it: less than a minute
#     make check-rust      tests it (tests/rust/rust)

CARGO = cargo
RUSTC = rustc

rust_programs = out/rust/target/release/symfilter out/rust/target/release/cosvigle
rust_archive = out/rust/capi/target/release/libcosvigle.a

# What the build needs, or a line where it isn't there.
define needs_rust
command -v python3 >/dev/null || { echo 'make: there is no command python3. Install Python 3' >&2; exit 1; }; \
for tool in $(CARGO) $(RUSTC); do command -v "$$tool" >/dev/null || \
    { echo "make: there is no command $$tool. Install Rust 1.88 or later" >&2; exit 1; }; done; \
said=$$($(RUSTC) --version) && echo "$$said" | awk '{ split($$2, v, "."); exit !(v[1] > 1 || v[2] >= 88) }' || \
    { echo "make: Rust 1.88 or later is needed, and this is $$said" >&2; exit 1; }
endef

# Cargo builds what is older than its sources, and nothing else. It takes the compiler and the folders that are named
# here, whatever its settings are. The library for C has no path of this machine in it.
build_rust = RUSTC=$(RUSTC) $(CARGO) build --release --manifest-path out/rust/Cargo.toml -p $(1) \
    --target-dir out/rust/$(2)target
no_paths = RUSTFLAGS="$$RUSTFLAGS --remap-path-prefix=$(CURDIR)/out/rust/="

rust:
	@$(needs_rust)
	python3 tools/extract . out/rust
	$(call build_rust,cosvigle)
	$(no_paths) $(call build_rust,cosvigle-c,capi/)
	@touch out/rust/built
	+@$(MAKE) --no-print-directory FROM=rust out/rust/libcosvigle.a out/rust/$(SONAME) out/rust/$(CXXABI)

# For `make install FROM=rust`, which builds only where a source is newer.
$(rust_programs): out/rust/built ;

out/rust/built: tools/extract crates.txt VERSION $(shell find packaging/rust crates/*/src -type f)
	+$(MAKE) rust

check-rust: rust
	tests/rust/rust

.PHONY: rust check-rust
