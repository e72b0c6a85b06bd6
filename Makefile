# Installs the released library for C, with what pkg-config reads: make install PREFIX=/usr/local
PREFIX ?= /usr/local
RELEASE = release
TO = $(DESTDIR)$(abspath $(PREFIX))
VERSION = $(shell sed -n 's/^Version: //p' $(RELEASE)/textarea.pc)
# The name that programs ask for at run time: the version but for its last number.
SONAME = libtextarea.so.$(basename $(VERSION))

help:
	@echo "make install PREFIX=/usr/local    installs libtextarea, textarea.h and textarea.pc"
	@echo "make uninstall PREFIX=/usr/local  removes them"

install:
	@test -f $(RELEASE)/libtextarea.a || { echo "there is no $(RELEASE)/libtextarea.a: docs/BINDINGS.md says how one is built"; exit 1; }
	install -d $(TO)/include $(TO)/lib/pkgconfig
	install -m 644 $(RELEASE)/textarea.h $(TO)/include
	install -m 644 $(RELEASE)/libtextarea.a $(TO)/lib
	install -m 755 $(RELEASE)/libtextarea.so $(TO)/lib/$(SONAME)
	ln -sf $(SONAME) $(TO)/lib/libtextarea.so
	sed -e 's|^prefix=.*|prefix=$(abspath $(PREFIX))|' -e 's|^\(includedir=.*\)|\1/include|' -e 's|^\(libdir=.*\)|\1/lib|' \
	    -e 's|^Libs: .*|Libs: -L$${libdir} -Wl,-rpath,$${libdir} -ltextarea|' $(RELEASE)/textarea.pc > $(TO)/lib/pkgconfig/textarea.pc

uninstall:
	rm -f $(TO)/include/textarea.h $(TO)/lib/libtextarea.a $(TO)/lib/libtextarea.so* $(TO)/lib/pkgconfig/textarea.pc

.PHONY: help install uninstall
