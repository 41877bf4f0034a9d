# The static library, its header and its pkg-config file.
#
#   make                     proves and builds crates/reloc/out/libreloc.a (with the Rattle kit on the PATH)
#   make install             puts library, header and reloc.pc under $(DESTDIR)$(PREFIX)
#   make uninstall           takes them away
#
# With RELOC_LIB_DIR set, the libreloc.a in that folder is installed and nothing is built.
PREFIX ?= /usr/local
RELOC_LIB_DIR ?=
VERSION := $(shell sed -n 's/^.define RELOC_VERSION_TEXT "\(.*\)"$$/\1/p' include/reloc.h)

include_dir = $(DESTDIR)$(PREFIX)/include
lib_dir = $(DESTDIR)$(PREFIX)/lib

ifeq ($(RELOC_LIB_DIR),)
archive = crates/reloc/out/libreloc.a
else
archive = $(RELOC_LIB_DIR)/libreloc.a
endif

all: $(archive)

# rt proves again what changed, so it is asked each time. The library is for every x86-64: a later one's instructions want constants, which
# would be data in it.
crates/reloc/out/libreloc.a: always
	cd crates/reloc && rt lib --cpu=x86-64

install: $(archive)
	install -d '$(include_dir)' '$(lib_dir)/pkgconfig'
	install -m 644 include/reloc.h '$(include_dir)/reloc.h'
	install -m 644 '$(archive)' '$(lib_dir)/libreloc.a'
	sed -e 's|@PREFIX@|$(PREFIX)|' -e 's|@VERSION@|$(VERSION)|' reloc.pc.in >'$(lib_dir)/pkgconfig/reloc.pc'

uninstall:
	rm -f '$(include_dir)/reloc.h' '$(lib_dir)/libreloc.a' '$(lib_dir)/pkgconfig/reloc.pc'

.PHONY: all always install uninstall
