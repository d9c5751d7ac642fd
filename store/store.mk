# The store over SQLite and PostgreSQL (docs/STORE.md), for the Makefile of the folder above.
#
#   make store           target/store: libnutrameza_store.a, libnutrameza_store.so, nutrameza_store.pc
#   make install-store   these, the header and the man page into PREFIX; make uninstall-store takes them away
#   make ward-store      two windows of one doctor, raced by two processes a thousand times, on both engines, and verify
#   make store-test      the tests of the store, as in the gate
#   make soak            the same faults and races for longer (SOAK seconds each, 120)
#   make store-figures   calls a second; run it with nothing beside it
#
# SQLITE= or POSTGRESQL= (empty) leaves an engine out of the build.

SQLITE ?= yes
POSTGRESQL ?= yes
SOAK ?= 120

store_parts := schema rows handle call look policy hosts verify mend $(if $(SQLITE),sqlite) $(if $(POSTGRESQL),postgresql)
store_flags := -std=c99 -O2 -g -fPIC -Wall -Wextra -Wpedantic -Wconversion -Iinclude -Istore \
  $(if $(SQLITE),,-DNUTRAMEZA_STORE_WITHOUT_SQLITE) \
  $(if $(POSTGRESQL),-I$(shell pg_config --includedir 2> /dev/null),-DNUTRAMEZA_STORE_WITHOUT_POSTGRESQL)
store_libs := $(if $(SQLITE),-lsqlite3) $(if $(POSTGRESQL),-lpq)
store_out ?= target/store
store_filled = sed -e 's|@PREFIX@|$(prefix)|' -e 's|@VERSION@|$(VERSION)|' -e 's|@LIBS@|$(store_libs)|'
store_objects := $(store_parts:%=$(store_out)/%.o)

store_files := lib/libnutrameza_store.a lib/libnutrameza_store.so lib/libnutrameza_store.so.0 include/nutrameza_store.h \
  lib/pkgconfig/nutrameza_store.pc lib/pkgconfig/nutrameza_store-static.pc share/man/man3/nutrameza_store.3

.PHONY: store install-store uninstall-store ward-store store-test soak store-figures

store: $(store_out)/libnutrameza_store.a $(store_out)/libnutrameza_store.so $(store_out)/nutrameza_store.pc $(store_out)/nutrameza_store-static.pc

$(store_out)/%.o: store/%.c store/store.h store/engine.h include/nutrameza_store.h include/nutrameza.h
	@mkdir -p $(store_out)
	$(CC) $(store_flags) $(CFLAGS) -c $< -o $@

$(store_out)/libnutrameza_store.a: $(store_objects)
	rm -f $@
	$(AR) rcs $@ $^

# The shared library has the kit in it and shows the store's calls alone.
$(store_out)/libnutrameza_store.so: $(store_objects) store/exports.map $(library)
	$(CC) -shared -Wl,-soname,libnutrameza_store.so.0 -Wl,--version-script=store/exports.map -Wl,-z,defs $(CFLAGS) \
	  -o $@ $(store_objects) $(library) $(store_libs)

$(store_out)/%.pc: store/%.pc.in
	@mkdir -p $(store_out)
	@$(store_filled) $< > $@

install-store: store install
	install -m 644 $(store_out)/libnutrameza_store.a '$(to)/lib/'
	install -m 755 $(store_out)/libnutrameza_store.so '$(to)/lib/libnutrameza_store.so.0'
	ln -sf libnutrameza_store.so.0 '$(to)/lib/libnutrameza_store.so'
	install -m 644 include/nutrameza_store.h '$(to)/include/nutrameza_store.h'
	@for f in nutrameza_store nutrameza_store-static; do $(store_filled) store/$$f.pc.in > '$(to)'/lib/pkgconfig/$$f.pc && \
	  chmod 644 '$(to)'/lib/pkgconfig/$$f.pc || exit 1; done
	@tools/man_pages --store docs/STORE.md include/nutrameza_store.h '$(to)/share/man/man3' $(VERSION) $(dated)

uninstall-store:
	rm -f $(patsubst %,'$(to)/%',$(store_files))

ward-store: store
	@bash tests/store.sh ward

store-test: store
	@bash tests/store.sh

soak: store
	@bash tests/store.sh soak $(SOAK)

store-figures: store
	@bash tests/store.sh figures
