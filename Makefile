# `make try` answers two lines with nothing proved, in a minute; `make test` tests with nothing proved, in minutes; `make
# prove` is the gate: it proves every crate, tries the wrong bodies, and runs every test and program.
# `make` proves the two programs and what they use, and leaves them here; `make c` proves the calls for C, and
# leaves their libraries in out/c; `make wasm` leaves the same calls as a module for WebAssembly in out/wasm;
# `make install` copies the programs and their manual pages, and what `make c` has left;
# `make wheel`, `make npm`, `make crate` and `make deb` leave packages in out/packages; `make postgresql` and
# `make sqlite` leave the extensions in their folders of bindings/;
# `make compare` measures icu_locale_cli beside others, once it is built; `make clean` takes away what was built, and the
# next `make` then proves all from nothing.
PROGRAMS = icu_locale_cli icu_locale_stream
PREFIX = /usr/local
LIBDIR = $(PREFIX)/lib
C_FILES = libicu_locale.a libicu_locale.so libicu_locale.so.0 pkgconfig/icu_locale.pc

.PHONY: all try test prove c wasm wheel npm crate deb postgresql sqlite compare install uninstall clean
.SILENT: try test prove

all:
	tools/build $(PROGRAMS)

c: $(PROGRAMS)
	tools/build-c

wasm:
	tools/build-wasm

wheel crate: out/c/libicu_locale.a
	tools/package $@

npm: out/c/libicu_locale.a out/wasm/icu_locale.wasm
	tools/package $@

deb: $(PROGRAMS) out/c/libicu_locale.a
	tools/package $@

postgresql sqlite: out/c/libicu_locale.a | out/data
	$(MAKE) -C bindings/$@

try:
	printf 'zh-CN\nund-SA\n' | tools/try maximize

test:
	tools/test

prove:
	rt ci

compare:
	bench/compare/run --write

# Builds a program, and the libraries, only where they are not there.
$(PROGRAMS):
	tools/build $@

out/c/libicu_locale.a: | $(PROGRAMS)
	tools/build-c

out/data:
	tools/package-data $@

out/wasm/icu_locale.wasm: | $(PROGRAMS)
	tools/build-wasm

install: $(PROGRAMS)
	install -d "$(DESTDIR)$(PREFIX)/bin" "$(DESTDIR)$(PREFIX)/share/man/man1"
	install -m 755 $(PROGRAMS) "$(DESTDIR)$(PREFIX)/bin"
	install -m 644 $(PROGRAMS:%=man/%.1) "$(DESTDIR)$(PREFIX)/share/man/man1"
	if [ -d out/c ]; then \
	    install -d "$(DESTDIR)$(PREFIX)/include" "$(DESTDIR)$(LIBDIR)/pkgconfig" "$(DESTDIR)$(PREFIX)/share/man/man3" && \
	    install -m 644 man/icu_locale.3 "$(DESTDIR)$(PREFIX)/share/man/man3" && \
	    install -m 644 out/c/icu_locale.h out/c/icu_locale_data.h "$(DESTDIR)$(PREFIX)/include" && \
	    install -m 644 out/c/libicu_locale.a out/c/libicu_locale.so.0 "$(DESTDIR)$(LIBDIR)" && \
	    ln -sf libicu_locale.so.0 "$(DESTDIR)$(LIBDIR)/libicu_locale.so" && \
	    sed "s|@includedir@|$(PREFIX)/include|; s|@libdir@|$(LIBDIR)|; s|@version@|$$(cat VERSION)|" \
	        tools/icu_locale.pc.in > "$(DESTDIR)$(LIBDIR)/pkgconfig/icu_locale.pc"; \
	fi

uninstall:
	rm -f $(PROGRAMS:%="$(DESTDIR)$(PREFIX)/bin/%") $(PROGRAMS:%="$(DESTDIR)$(PREFIX)/share/man/man1/%.1") \
	    "$(DESTDIR)$(PREFIX)/include/icu_locale.h" "$(DESTDIR)$(PREFIX)/include/icu_locale_data.h" \
	    "$(DESTDIR)$(PREFIX)/share/man/man3/icu_locale.3" $(C_FILES:%="$(DESTDIR)$(LIBDIR)/%")

clean:
	rm -rf out crates/*/out $(PROGRAMS)
	rm -rf bindings/python/build bindings/python/*.egg-info bindings/rust/target bindings/node/addon \
	    bindings/node/icu_locale.wasm bindings/node/browser.mjs bindings/node/example.json \
	    bindings/node/example-supplement.json bindings/node/data examples/page/node_modules bindings/sqlite/*.so \
	    bindings/sqlite/*.json bindings/postgresql/*.o bindings/postgresql/*.so bindings/postgresql/*.json \
	    bindings/postgresql/icu_locale--*
	find tools bench .ci bindings -name __pycache__ -prune -exec rm -rf {} +
