# For C and C++: has the Rattle kit prove and compile the archive, and installs it with its header and a file for pkg-config.
#
#     make install PREFIX=/some/folder
#     cc program.c $(pkg-config --cflags --libs vrd)
#
# Where PREFIX is not a folder that pkg-config looks into, name PREFIX/lib/pkgconfig in PKG_CONFIG_PATH.

PREFIX = /usr/local
ARCHIVE = target/staticlib/libvrd_ffi.a
INSTALLED = $(DESTDIR)$(PREFIX)
VERSION = $$(sed -n 's/^version = "\(.*\)"/\1/p' rust/Cargo.toml)

all: $(ARCHIVE)

# An archive that is newer than everything it was made of is not made again.
$(ARCHIVE): FORCE
	@if [ ! -f $@ ] || [ -n "$$(find crates.txt crates/*/src crates/*/specs crates/*/proofs -newer $@ 2>&1 | head -n 1)" ]; then \
	    tools/archive vrd_ffi; \
	fi

install: all
	mkdir -p $(INSTALLED)/include $(INSTALLED)/lib/pkgconfig
	cp include/vrd.h $(INSTALLED)/include/vrd.h
	cp $(ARCHIVE) $(INSTALLED)/lib/libvrd.a
	sed "s|@PREFIX@|$(PREFIX)|; s|@VERSION@|$(VERSION)|" include/vrd.pc.in >$(INSTALLED)/lib/pkgconfig/vrd.pc

uninstall:
	rm -f $(INSTALLED)/include/vrd.h $(INSTALLED)/lib/libvrd.a $(INSTALLED)/lib/pkgconfig/vrd.pc

FORCE:

.PHONY: all install uninstall FORCE
