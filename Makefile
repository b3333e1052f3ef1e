# Builds, installs and removes the programs and the library.
#   make                            proves and builds: tools/build
#   make test                       tools/test
#   make install PREFIX=/usr/local  puts programs, header, library, pkg-config file and man pages there; with DESTDIR below that folder
#   make uninstall PREFIX=...       removes the same files
PREFIX ?= /usr/local
DESTDIR ?=
bindir := $(PREFIX)/bin
libdir := $(PREFIX)/lib
includedir := $(PREFIX)/include
mandir := $(PREFIX)/share/man
VERSION := $(shell sed -n 's/^.define IMG_VERSION "\(.*\)"$$/\1/p' include/img.h)

BUILT := target/bin/img target/bin/imgdraw target/bin/imgcheck target/bin/imgtext target/staticlib/libimg.a
INSTALLED := $(bindir)/img $(bindir)/imgdraw $(bindir)/imgcheck $(bindir)/imgtext $(includedir)/img.h $(libdir)/libimg.a $(libdir)/pkgconfig/img.pc \
	$(mandir)/man1/img.1 $(mandir)/man1/imgdraw.1 $(mandir)/man1/imgcheck.1 $(mandir)/man1/imgtext.1 $(mandir)/man3/img.3

.PHONY: all test install uninstall
all:
	tools/build

test:
	tools/test

# What is to be installed was built before, by somebody who need not be root.
install:
	@for file in $(BUILT); do [ -f $$file ] || { echo "make install: no $$file: run make first" >&2; exit 1; }; done
	install -d $(DESTDIR)$(bindir) $(DESTDIR)$(libdir)/pkgconfig $(DESTDIR)$(includedir) $(DESTDIR)$(mandir)/man1 $(DESTDIR)$(mandir)/man3
	install -m 755 target/bin/img target/bin/imgdraw target/bin/imgcheck target/bin/imgtext $(DESTDIR)$(bindir)
	install -m 644 include/img.h $(DESTDIR)$(includedir)
	install -m 644 target/staticlib/libimg.a $(DESTDIR)$(libdir)
	sed 's|@PREFIX@|$(PREFIX)|; s|@VERSION@|$(VERSION)|' include/img.pc.in >$(DESTDIR)$(libdir)/pkgconfig/img.pc
	for page in img.1 imgdraw.1 imgcheck.1 imgtext.1 img.3; do \
	  tools/man-page man/$$page $(VERSION) >$(DESTDIR)$(mandir)/man$${page##*.}/$$page || exit 1; \
	done
	chmod 644 $(DESTDIR)$(libdir)/pkgconfig/img.pc $(DESTDIR)$(mandir)/man?/img*.[13]

uninstall:
	rm -f $(addprefix $(DESTDIR),$(INSTALLED))
