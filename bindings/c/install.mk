# make PREFIX=/usr/local install [DESTDIR=..] [LIBDIR=..]; make uninstall takes the same words.
#
# libyaml with this parser then stands in LIBDIR/pokhvizi, where proved-libyaml takes it from. make install-libyaml puts it into LIBDIR,
# too, in the place of the system's libyaml or before it; after ldconfig all programs take it. A library that a program runs with isn't
# written over: its file goes first.
PREFIX ?= /usr/local
DESTDIR ?=
LIBDIR ?= $(PREFIX)/lib
to = $(DESTDIR)$(PREFIX)
lib = $(DESTDIR)$(LIBDIR)
doc = $(to)/share/doc/pokhvizi

all:
	@echo 'Nothing to build: make PREFIX=/usr/local install'

install:
	install -d '$(to)/bin' '$(to)/include/pokhvizi' '$(lib)/pkgconfig' '$(lib)/pokhvizi' '$(doc)'
	install -m 644 include/pokhvizi/*.h '$(to)/include/pokhvizi'
	install -m 644 lib/libpokhvizi.a '$(lib)'
	cp -P --remove-destination lib/libpokhvizi.so* '$(lib)'
	sed -e 's#^prefix=.*#prefix=$(PREFIX)#' -e 's#^libdir=.*#libdir=$(LIBDIR)#' lib/pkgconfig/pokhvizi.pc > '$(lib)/pkgconfig/pokhvizi.pc'
	cp -R --remove-destination lib/pokhvizi/. '$(lib)/pokhvizi'
	sed 's#^lib=.*#lib=$(LIBDIR)#' bin/proved-libyaml > '$(to)/bin/proved-libyaml'
	chmod 755 '$(to)/bin/proved-libyaml'
	cp -R share/doc/pokhvizi/. '$(doc)'

uninstall:
	rm -rf '$(to)/include/pokhvizi' '$(doc)' '$(lib)/pokhvizi'
	rm -f '$(lib)/libpokhvizi.a' '$(lib)'/libpokhvizi.so* '$(lib)/pkgconfig/pokhvizi.pc' '$(to)/bin/proved-libyaml'

install-libyaml:
	install -d '$(to)/include' '$(lib)/pkgconfig'
	cp -P --remove-destination lib/pokhvizi/libyaml* '$(lib)'
	install -m 644 lib/pokhvizi/include/yaml.h '$(to)/include'
	sed -e 's#^libdir=.*#libdir=$(LIBDIR)#' -e 's#^includedir=.*#includedir=$(PREFIX)/include#' lib/pokhvizi/pkgconfig/yaml-0.1.pc \
	    > '$(lib)/pkgconfig/yaml-0.1.pc'

uninstall-libyaml:
	for file in lib/pokhvizi/libyaml*; do rm -f '$(lib)'/"$${file##*/}"; done
	rm -f '$(to)/include/yaml.h' '$(lib)/pkgconfig/yaml-0.1.pc'

.PHONY: all install uninstall install-libyaml uninstall-libyaml
