# Builds the library and installs it for hosts in C and Python.
#
#   make             proves and builds the archive (rt lib in crates/mdeh), and links the shared library from it
#   make install     header, both libraries, the pkg-config file, the Python package and the command `mdeh`
#   make uninstall   removes what install wrote
#   make clean       removes what make wrote
#
# PREFIX is the folder that hosts see, DESTDIR stands before it where files are staged elsewhere. The archive is proved
# and built again only where a source is younger. ARCHIVE names another one, which is installed as it is.
PREFIX = /usr/local
DESTDIR =
ARCHIVE = target/staticlib/libmdeh.a
SHARED = target/lib/libmdeh.so

include = $(DESTDIR)$(PREFIX)/include
lib = $(DESTDIR)$(PREFIX)/lib
bin = $(DESTDIR)$(PREFIX)/bin
share = $(DESTDIR)$(PREFIX)/share/mdeh
package = $(share)/python/mdeh

version = $(shell sed -n 's/^.define MDEH_VERSION "\(.*\)"$$/\1/p' embed/mdeh.h)

# The shared library of an archive: all of its code, and of the system the C library alone.
link = gcc -shared -nostartfiles -Wl,-soname,libmdeh.so -o $(1) \
	-Wl,--whole-archive $(ARCHIVE) -Wl,--no-whole-archive

.PHONY: all install uninstall clean

all: $(SHARED)

$(SHARED): $(ARCHIVE)
	@mkdir -p $(@D)
	$(call link,$@)

target/staticlib/lib%.a: crates.txt $(shell find crates -name out -prune -o \( -name '*.rt' -o -name '*.antt' \) -print)
	cd crates/$* && rt lib
	@mkdir -p $(@D)
	@cp crates/$*/out/lib$*.a $@

install: $(ARCHIVE)
	install -d '$(include)' '$(lib)/pkgconfig' '$(package)' '$(bin)'
	install -m 644 embed/mdeh.h '$(include)/mdeh.h'
	install -m 644 '$(ARCHIVE)' '$(lib)/libmdeh.a'
	$(call link,'$(lib)/libmdeh.so')
	chmod 755 '$(lib)/libmdeh.so'
	sed -e 's|@prefix@|$(PREFIX)|' -e 's|@version@|$(version)|' embed/mdeh.pc.in >'$(lib)/pkgconfig/mdeh.pc'
	chmod 644 '$(lib)/pkgconfig/mdeh.pc'
	install -m 644 embed/python/mdeh/*.py '$(package)'
	install -m 755 '$(lib)/libmdeh.so' '$(package)/libmdeh.so'
	install -m 755 embed/python/bin/mdeh '$(bin)/mdeh'

uninstall:
	rm -f '$(include)/mdeh.h' '$(lib)/libmdeh.a' '$(lib)/libmdeh.so' '$(lib)/pkgconfig/mdeh.pc' '$(bin)/mdeh'
	rm -rf '$(share)'

clean:
	rm -f $(SHARED) target/staticlib/libmdeh.a
