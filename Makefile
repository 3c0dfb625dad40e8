# The common commands. They need rt (the Rattle toolchain), flock and a C compiler; `test`, `bench`, `codewords`, `diagram` and `reading` also need Rust, `fuzz` needs Rust and clang.

# The version stands in the header.
header := include/lomvuze.h
number = $(shell sed -n 's/^.define LOMVUZE_VERSION_$(1) //p' $(header))
major := $(call number,MAJOR)
minor := $(call number,MINOR)
version := $(major).$(minor).$(call number,PATCH)

# LOMVUZE_STATICLIB and LOMVUZE_BIN name other folders with the static libraries and the program in them; nothing is built there.
staticlib := $(or $(LOMVUZE_STATICLIB),target/staticlib)
bin := $(or $(LOMVUZE_BIN),target/bin)

sources := crates.txt $(shell find crates \( -name out -o -name must-fail \) -prune -o -type f -print)

# The library: an archive and a shared object. Before version 1 what a call takes and returns may change with the minor number, so the shared object's
# name has it: a program is not loaded with other calls than it was compiled for.
archive := target/liblomvuze.a
shared := target/liblomvuze.so.$(version)
soname := liblomvuze.so.$(major).$(minor)
all: $(archive) $(shared)

# Proves the exported calls and writes them as a static library.
target/staticlib/lib%.a: $(sources)
	@bash make/prove.sh staticlib $*
	@touch $@

# The proved calls, and what is plain C beside them. Made again where another folder is named.
$(archive): $(staticlib)/libverdicts.a target/lomvuze.o target/folder
	@cp $< $@.part && $(AR) rs $@.part target/lomvuze.o && mv $@.part $@

target/lomvuze.o: c/lomvuze.c $(header) Makefile
	@mkdir -p target
	$(CC) -std=c11 -O2 -fPIC -Wall -Wextra -Iinclude $(CFLAGS) -c -o $@ $<

target/folder: always
	@mkdir -p target
	@echo '$(abspath $(staticlib) $(bin))' | cmp -s - $@ || echo '$(abspath $(staticlib) $(bin))' > $@

# The same as a shared library, which exports what the header declares alone, has no text relocations, and is bound when it is loaded.
$(shared): $(archive) c/lomvuze.map Makefile
	$(CC) -shared -Wl,-soname,$(soname) -Wl,--version-script=c/lomvuze.map -Wl,-z,defs -Wl,-z,text -Wl,-z,now $(LDFLAGS) -o $@ \
	    -Wl,--whole-archive $(archive) -Wl,--no-whole-archive

# Proves a program, builds it and runs it on its stored input.
target/bin/%: $(sources)
	@bash make/prove.sh check $*
	@touch $@

# Folds stored items into one, verifies the fold and decides what is left; then shows a fold that is refused.
demo: compiler target/fold_batch target/verify_batch target/spoil
	@bash make/demo.sh

compiler:
	@command -v $(firstword $(CC)) >/dev/null || { echo 'A C compiler is missing: there is no $(firstword $(CC)) on PATH (CC names another).' >&2; exit 2; }

# Counts accepted challenges; prints the root of a witness.
collect: compiler target/collect
root: compiler target/root

examples := fold_batch verify_batch collect root
$(examples:%=target/%): target/%: examples/c/%.c $(wildcard examples/c/*.h examples/c/obligations/modp.h) $(header) $(archive)
	@mkdir -p target
	$(CC) -std=c11 -O2 -Iinclude -o $@ $< $(archive)

# Changes a number of a stored file.
target/spoil: tests/c/spoil.c examples/c/batch.h $(header)
	@mkdir -p target
	$(CC) -std=c11 -O2 -Iinclude -o $@ $<

# The program that lists which items of a sheet hold: the proved one, and the script that runs it on a file and gives an exit status.
claims: target/claims

quoted = '$(subst ','\'',$(1))'
# The script with the place of the proved program, as words of a shell.
script = { echo '\#!/bin/sh'; echo $(call quoted,program=$(1)); sed 1d make/claims.in; }

target/claims: make/claims.in $(bin)/claims target/folder Makefile
	@$(call script,$(call quoted,$(abspath $(bin)/claims))) > $@.part && chmod 755 $@.part && mv $@.part $@

# Libraries, headers, pkg-config file, programs, documents, examples and man pages, under PREFIX. DESTDIR goes before it where they are packed for another
# machine. Both may have spaces.
PREFIX ?= /usr/local
prefix := $(if $(filter /%,$(firstword $(PREFIX))),$(PREFIX),$(CURDIR)/$(PREFIX))
to = $(call quoted,$(DESTDIR)$(prefix)/$(1))
# Each function has a man page, made of what the header says of it.
functions := $(shell sed -n 's/^\(uint[0-9]*_t \|const char \*\)\(lomvuze_[a-z_]*\).*/\2/p' $(header))
installed := bin/claims bin/lomvuze-root libexec/lomvuze/claims include/lomvuze.h include/lomvuze.hpp lib/liblomvuze.a lib/liblomvuze.so lib/$(soname) \
    lib/liblomvuze.so.$(version) lib/pkgconfig/lomvuze.pc share/man/man1/claims.1 share/man/man3/lomvuze.3 $(functions:%=share/man/man3/%.3)
folders := bin libexec/lomvuze include lib/pkgconfig share/doc/lomvuze/docs share/man/man1 share/man/man3
write = install -m 644 /dev/stdin
# What is installed as docs/READING.md: the whole list, or its index alone where there is no Rust to make it.
reading := $(if $(shell command -v cargo),target/READING.md,docs/READING.md)

install: all target/root $(bin)/claims $(reading)
	install -d $(foreach folder,$(folders),$(call to,$(folder)))
	install -m 644 $(archive) $(call to,lib)
	install -m 755 $(shared) $(call to,lib)
	ln -sf liblomvuze.so.$(version) $(call to,lib/$(soname))
	ln -sf $(soname) $(call to,lib/liblomvuze.so)
	install -m 644 include/lomvuze.h include/lomvuze.hpp $(call to,include)
	{ echo prefix=$(call quoted,$(prefix)); sed 's/@VERSION@/$(version)/' lomvuze.pc.in; } | $(write) $(call to,lib/pkgconfig/lomvuze.pc)
	install -m 755 $(bin)/claims $(call to,libexec/lomvuze)
	$(call script,$(call quoted,$(prefix)/libexec/lomvuze/claims)) | install -m 755 /dev/stdin $(call to,bin/claims)
	install -m 755 target/root $(call to,bin/lomvuze-root)
	install -m 644 README.md CHANGES.md LICENSE $(call to,share/doc/lomvuze)
	install -m 644 docs/*.md docs/*.svg $(call to,share/doc/lomvuze/docs)
	install -m 644 $(reading) $(call to,share/doc/lomvuze/docs/READING.md)
	cp -RL examples $(call to,share/doc/lomvuze) && chmod -R u=rwX,go=rX $(call to,share/doc/lomvuze/examples)
	sed '/\*\//,$$d; 1d; s/^ \* \{0,1\}//' $(header) | $(write) $(call to,share/doc/lomvuze/lomvuze.txt)
	install -m 644 docs/man/claims.1 $(call to,share/man/man1)
	install -m 644 docs/man/lomvuze.3 $(call to,share/man/man3)
	for function in $(functions); do \
	    page=$$(awk -v call=$$function -f make/man.awk docs/man/lomvuze.3 $(header)) && printf '%s\n' "$$page" | $(write) $(call to,share/man/man3)/$$function.3 || exit 1; \
	done

uninstall:
	rm -f $(foreach file,$(installed),$(call to,$(file)))
	rm -rf $(call to,share/doc/lomvuze) $(call to,libexec/lomvuze)

# The gate: every proof and every test.
test:
	bash .ci/run

# The proved library's speed, and that of OpenSSL's SHA-256, beside plain Rust: tables in Markdown, in a minute.
bench: $(staticlib)/libharness.a $(staticlib)/libverdicts.a
	cargo run --release --offline --manifest-path rust/Cargo.toml -p bench

# 10,000 codewords, proved and in plain Rust. Fails where the proved transform takes more than twice as long.
codewords: $(staticlib)/libharness.a $(staticlib)/libverdicts.a
	cargo run --release --offline --manifest-path rust/Cargo.toml -p bench --bin codewords

# The pictures of the crates and of the chain of calls.
tool = cargo run --quiet --release --offline --manifest-path tools/Cargo.toml -p lomvuze-$(1) --
diagram: target/crates.svg target/chain.svg
	cp $^ docs

target/crates.svg target/chain.svg: target/%.svg: always
	@mkdir -p target
	@$(call tool,diagram) $* . > $@.part && mv $@.part $@

# The definitions that theorems and calls rest on, in reading order; and the index of this list, which the repository has.
reading: target/reading-index.md
	cp $< docs/READING.md

target/READING.md: always
	@mkdir -p target
	@$(call tool,reading) list . > $@.part && mv $@.part $@

target/reading-index.md: target/READING.md
	@$(call tool,reading) index . $$(sha256sum < $< | cut -d' ' -f1) > $@.part && mv $@.part $@

# The exported calls on inputs that a fuzzer makes, a minute each: see fuzz/README.md.
fuzz:
	bash fuzz/run.sh

.PHONY: all always demo compiler collect root claims install uninstall test bench codewords diagram reading fuzz
