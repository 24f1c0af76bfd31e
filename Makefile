# make                               builds the proved library for this machine's processor, the words for its refusals, and the program
# make install PREFIX=.. DESTDIR=..  installs them with headers, pkg-config file, man pages, and sources to copy
# make check                         runs the tests beside the proofs (tests/run); the gate with all proofs is .ci/run
PREFIX ?= /usr/local
bindir ?= $(PREFIX)/bin
libdir ?= $(PREFIX)/lib
includedir ?= $(PREFIX)/include
datadir ?= $(PREFIX)/share
mandir ?= $(datadir)/man
DESTDIR ?=
INSTALL ?= install

VERSION := $(shell sed -n 's/.*GATEWAY_VERSION "\(.*\)"/\1/p' host/version.h)
COPIED := value.h value.c walk_variables.h walk_variables.c plans.h plans.c pair.h pair.c pieces.h pieces.c text.h text.c say.h say.c cells.h cells.c

.PHONY: all install uninstall check clean

# the words for refusals as sources, for those who do not link libgatewayhost.a
WORDS := refusal.h refusal.c tell.h tell.c tell_expected.c tell_framing.c tell_query.c tell_schema.c tell_value.c tell_walk.c variables.h variables.c

all:
	bash host/build

build/gateway.pc: host/gateway.pc.in host/version.h FORCE
	mkdir -p build
	sed -e 's|@prefix@|$(PREFIX)|; s|@libdir@|$(libdir)|; s|@includedir@|$(includedir)|; s|@version@|$(VERSION)|' $< >$@
FORCE:

install: all build/gateway.pc
	$(INSTALL) -d $(DESTDIR)$(bindir) $(DESTDIR)$(libdir)/pkgconfig $(DESTDIR)$(includedir)/gateway $(DESTDIR)$(mandir)/man1 \
	  $(DESTDIR)$(mandir)/man3 $(DESTDIR)$(datadir)/gateway/host
	$(INSTALL) build/gateway $(DESTDIR)$(bindir)/
	$(INSTALL) -m 644 build/native/libgateway.a build/native/libgatewayhost.a $(DESTDIR)$(libdir)/
	$(INSTALL) -m 644 build/gateway.pc $(DESTDIR)$(libdir)/pkgconfig/
	$(INSTALL) -m 644 include/gateway.h $(DESTDIR)$(includedir)/
	$(INSTALL) -m 644 host/refusal.h $(DESTDIR)$(includedir)/gateway/
	$(INSTALL) -m 644 host/man/gateway.1 $(DESTDIR)$(mandir)/man1/
	$(INSTALL) -m 644 host/man/gateway.3 $(DESTDIR)$(mandir)/man3/
	$(INSTALL) -m 644 $(addprefix host/,$(COPIED) $(WORDS)) $(DESTDIR)$(datadir)/gateway/host/

uninstall:
	rm -f $(DESTDIR)$(bindir)/gateway $(DESTDIR)$(libdir)/libgateway.a $(DESTDIR)$(libdir)/libgatewayhost.a \
	  $(DESTDIR)$(libdir)/pkgconfig/gateway.pc $(DESTDIR)$(includedir)/gateway.h $(DESTDIR)$(mandir)/man1/gateway.1 \
	  $(DESTDIR)$(mandir)/man3/gateway.3
	rm -rf $(DESTDIR)$(includedir)/gateway $(DESTDIR)$(datadir)/gateway

check:
	bash tests/run

clean:
	rm -rf build
