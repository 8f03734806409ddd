# For those who install it: `make`, `make install PREFIX=/usr/local`, `make uninstall`, `make check`. DESTDIR stages, PROGRAM_PREFIX renames the commands
# (PROGRAM_PREFIX=dzb- installs dzb-slip). Building needs `rt` and a C compiler's linker; what is installed needs neither, and where all is built
# installing does not either (`make && sudo make install`). LIBEXECDIR may be shared with others, as /usr/libexec is: ours is a folder in it.
PREFIX = /usr/local
BINDIR = $(PREFIX)/bin
LIBDIR = $(PREFIX)/lib
LIBEXECDIR = $(PREFIX)/libexec
INCLUDEDIR = $(PREFIX)/include
MANDIR = $(PREFIX)/share/man
DOCDIR = $(PREFIX)/share/doc/donzibrau
PROGRAM_PREFIX =
CC = cc
INSTALL = install

VERSION := $(shell sed -n 's/^.define DZB_VERSION "\(.*\)"$$/\1/p' include/donzibrau.h)
MAJOR := $(firstword $(subst ., ,$(VERSION)))
PROGRAMS := $(wildcard slip report burnin)
ARCHIVE = target/staticlib/libcapi.a
SHARED = target/lib/libdonzibrau.so
PAGES = $(PROGRAMS:%=%.1) donzibrau.3
OWN = $(LIBEXECDIR)/donzibrau

SOURCES := $(shell find crates crates.txt -name out -prune -o -type f -print)
# What goes to DOCDIR, in the places it has here, so that the links of the pages hold.
DOCUMENTS := README.md CHANGES.md $(wildcard docs/*.md docs/*.svg) examples/weigh_box.c examples/bare.c examples/cash_up.py \
    $(shell find bindings -type f -not -path '*/__pycache__/*' -not -path '*/target/*')

.PHONY: all programs shared install uninstall check
all: programs shared

# tools/build sees what changed, and replaces only what then differs. Without `rt` what is built stays.
programs:
	tools/build $(PROGRAMS)

$(ARCHIVE): $(SOURCES)
	tools/build capi

# The archive's functions, and no other name of it, as a shared library.
shared: $(SHARED)
$(SHARED): $(ARCHIVE) include/donzibrau.h
	mkdir -p target/lib
	printf '{ global: dzb_*; local: *; };\n' >target/lib/exports
	$(CC) -shared -o $(SHARED).$(VERSION) -Wl,-soname,libdonzibrau.so.$(MAJOR) -Wl,--version-script,target/lib/exports -Wl,--no-undefined \
	    -Wl,--whole-archive $(ARCHIVE) -Wl,--no-whole-archive
	ln -sf libdonzibrau.so.$(VERSION) $(SHARED).$(MAJOR)
	ln -sf libdonzibrau.so.$(MAJOR) $(SHARED)

# The commands stand as in a checkout, without crates.txt: then nothing is built.
install: all
	$(INSTALL) -d $(addprefix $(DESTDIR),$(BINDIR) $(LIBDIR)/pkgconfig $(OWN)/bin $(OWN)/tools $(OWN)/docs/help $(INCLUDEDIR) \
	    $(MANDIR)/man1 $(MANDIR)/man3 $(sort $(dir $(DOCUMENTS:%=$(DOCDIR)/%))))
	$(INSTALL) $(PROGRAMS:%=target/bin/%) $(DESTDIR)$(OWN)/bin
	$(INSTALL) $(PROGRAMS) $(DESTDIR)$(OWN)
	$(INSTALL) tools/program $(DESTDIR)$(OWN)/tools
	$(INSTALL) -m 644 docs/refusals.txt $(DESTDIR)$(OWN)/docs
	$(INSTALL) -m 644 $(PROGRAMS:%=docs/help/%.txt) $(DESTDIR)$(OWN)/docs/help
	echo $(VERSION) >$(DESTDIR)$(OWN)/VERSION
	chmod 644 $(DESTDIR)$(OWN)/VERSION
	for name in $(PROGRAMS); do ln -sfr $(DESTDIR)$(OWN)/$$name $(DESTDIR)$(BINDIR)/$(PROGRAM_PREFIX)$$name || exit 1; done
	$(INSTALL) -m 644 include/donzibrau.h $(DESTDIR)$(INCLUDEDIR)
	$(INSTALL) -m 644 $(ARCHIVE) $(DESTDIR)$(LIBDIR)/libdonzibrau.a
	$(INSTALL) -m 755 $(SHARED).$(VERSION) $(DESTDIR)$(LIBDIR)
	ln -sf libdonzibrau.so.$(VERSION) $(DESTDIR)$(LIBDIR)/libdonzibrau.so.$(MAJOR)
	ln -sf libdonzibrau.so.$(MAJOR) $(DESTDIR)$(LIBDIR)/libdonzibrau.so
	sed -e 's|@PREFIX@|$(PREFIX)|' -e 's|@LIBDIR@|$(LIBDIR)|' -e 's|@INCLUDEDIR@|$(INCLUDEDIR)|' -e 's|@VERSION@|$(VERSION)|' tools/donzibrau.pc.in \
	    >$(DESTDIR)$(LIBDIR)/pkgconfig/donzibrau.pc
	chmod 644 $(DESTDIR)$(LIBDIR)/pkgconfig/donzibrau.pc
	for page in $(PAGES); do at=$(DESTDIR)$(MANDIR)/man$${page##*.}/$$(case $$page in *.1) echo $(PROGRAM_PREFIX);; esac)$$page; \
	    tools/manual $$page >$$at && chmod 644 $$at || exit 1; done
	for file in $(DOCUMENTS); do mode=644; [ ! -x $$file ] || mode=755; $(INSTALL) -m $$mode $$file $(DESTDIR)$(DOCDIR)/$$file || exit 1; done

# By name, each file that `install` puts down; then the folders that are ours, if nothing else is in them.
uninstall:
	rm -f $(addprefix $(DESTDIR),$(PROGRAMS:%=$(BINDIR)/$(PROGRAM_PREFIX)%) $(PROGRAMS:%=$(MANDIR)/man1/$(PROGRAM_PREFIX)%.1) $(MANDIR)/man3/donzibrau.3 \
	    $(INCLUDEDIR)/donzibrau.h $(LIBDIR)/pkgconfig/donzibrau.pc $(LIBDIR)/libdonzibrau.a $(LIBDIR)/libdonzibrau.so $(LIBDIR)/libdonzibrau.so.$(MAJOR) \
	    $(LIBDIR)/libdonzibrau.so.$(VERSION) $(PROGRAMS:%=$(OWN)/bin/%) $(PROGRAMS:%=$(OWN)/%) $(PROGRAMS:%=$(OWN)/docs/help/%.txt) $(OWN)/docs/refusals.txt \
	    $(OWN)/tools/program $(OWN)/VERSION $(DOCUMENTS:%=$(DOCDIR)/%))
	rm -rf $(DESTDIR)$(DOCDIR)/bindings/python/donzibrau/__pycache__
	-find $(addprefix $(DESTDIR),$(OWN) $(DOCDIR)/bindings $(DOCDIR)/docs $(DOCDIR)/examples) -depth -type d -empty -delete
	-rmdir $(DESTDIR)$(DOCDIR)

check:
	tests/run
