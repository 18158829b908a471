# The libraries that are installed: `make install PREFIX=.. DESTDIR=..` and `make uninstall` with the same words. libkupaldiz is the proved archive together
# with the modules of kupaldiz_waiting.h and kupaldiz_table.h, libkupaldiz_check the checking build's part, libkupaldiz_netbsd the manual pages' own names; what is built lies in
# out/. The version stands in kupaldiz.h alone.

PREFIX = /usr/local
DESTDIR =
LIBDIR = $(PREFIX)/lib
INCLUDEDIR = $(PREFIX)/include
MANDIR = $(PREFIX)/share/man
DOCDIR = $(PREFIX)/share/doc/kupaldiz
EXAMPLESDIR = $(DOCDIR)/examples
# What the .pc files say of the prefix. A release that is unpacked anywhere says '$${pcfiledir}/../..'.
PC_PREFIX = $(PREFIX)
# What follows the 3 in the file's name of each page that leads to another one, as panic.3kupaldiz: no other package has that file.
MANSUFFIX = kupaldiz
# The licence, as SPDX names it. It is the owner's to choose: until then it is empty, and whoever makes a release is told so.
LICENCE =
INSTALL = install

# A path may have blanks: from here on each is as a shell wants it. PREFIX comes last, as the others may be made of it.
blank := $(subst ,, )
escaped = $(subst $(blank),\$(blank),$(1))
override DESTDIR := $(call escaped,$(DESTDIR))
override LIBDIR := $(call escaped,$(LIBDIR))
override INCLUDEDIR := $(call escaped,$(INCLUDEDIR))
override MANDIR := $(call escaped,$(MANDIR))
override EXAMPLESDIR := $(call escaped,$(EXAMPLESDIR))
override DOCDIR := $(call escaped,$(DOCDIR))
override PC_PREFIX := $(call escaped,$(PC_PREFIX))
override PREFIX := $(call escaped,$(PREFIX))
PKGCONFIGDIR = $(LIBDIR)/pkgconfig
CMAKEDIR = $(LIBDIR)/cmake/kupaldiz

version_part = $(shell sed -n 's/^\#define KUPALDIZ_VERSION_$(1)[[:blank:]]*//p' $(HEADER)/kupaldiz.h)
MAJOR := $(call version_part,MAJOR)
MINOR := $(call version_part,MINOR)
VERSION := $(MAJOR).$(MINOR).$(call version_part,PATCH)
# A minor version below 1.0 may change structs: it is in the sonames.
ABI := $(MAJOR)$(if $(filter 0,$(MAJOR)),.$(MINOR))
# The shared libraries of a build with other CPUs or slots have these in their names, as libkupaldiz-128x255.so.0.1: no program for another build starts with them.
BUILD := $(shell sed -n 's/^\#define KUPALDIZ_BUILD[[:blank:]]*"\(.*\)"/\1/p' $(HEADER)/kupaldiz_limits.h)
SONAME = libkupaldiz$(BUILD).so.$(ABI)
SHARED = libkupaldiz$(BUILD).so.$(VERSION)
# The layer isn't built over the registry, and has none of its limits.
NETBSD_SONAME = libkupaldiz_netbsd.so.$(ABI)
NETBSD_SHARED = libkupaldiz_netbsd.so.$(VERSION)

# What is installed beside the proved face, in the folder of headers itself. The pages' names have a folder of their own.
C_HEADERS = $(addprefix c/include/,kupaldiz_waiting.h kupaldiz_table.h) $(addprefix $(MADE_HEADERS)/,kupaldiz_check.h kupaldiz_tsan.h)

# The headers of the pages' names: those that the pages name, in sys and net, and what these are made of. What the layer is built from.
NETBSD_FOLDERS = kupaldiz sys net
NETBSD_HEADERS = $(patsubst $(LAYER_HEADERS)/%,%,$(wildcard $(NETBSD_FOLDERS:%=$(LAYER_HEADERS)/%/*.h)))
NETBSD_OBJECTS = $(patsubst netbsd/src/%.c,$(OUT)/installed-netbsd/%.o,$(wildcard netbsd/src/*.c))

# The pages that are made of headers.
pages:
	$(if $(IN_REPOSITORY),tools/header-pages.py make && netbsd/pages.py make)

# kupaldiz(3), kupaldiz_waiting(3) and kupaldiz_table(3), and the calls that each names at its head, each of which gets a page that leads there.
PAGES = kupaldiz kupaldiz_waiting kupaldiz_table
named_by = $(filter-out $(1),$(shell sed -n 's/^\.Nm \(kupaldiz_[a-z_]*\).*/\1/p' $(MADE_PAGES)/$(1).3 | sort -u))

# The pages of the pages' names: each call that one of them names gets a page that leads there, except kupaldiz_cpu, whose name a page has.
NETBSD_PAGES = $(filter-out $(PAGES),$(patsubst $(MADE_PAGES)/%.3,%,$(shell ls $(MADE_PAGES)/kupaldiz_*.3)))
netbsd_named_by = $(filter-out $(1),$(shell sed -n 's/^\.Nm \([A-Za-z_0-9]*\).*/\1/p' $(MADE_PAGES)/$(1).3 | sort -u))

# What a library is compiled and linked with: no function has a frame above a page. A library of one object is joined without the compiler's link-time steps.
COMPILED = $(STRICT) $(if $(LIMITS),,-Wframe-larger-than=4096) $(CPPFLAGS) $(filter-out -flto%,$(CFLAGS)) $(HARDENING) -fPIC -I$(HEADER)
LINKED = $(filter-out -flto%,$(CFLAGS)) $(LDFLAGS) -shared $(LINK_HARDENING) -Wl,-z,defs,-z,text,-z,nodelete

library: $(OUT)/libkupaldiz.a $(OUT)/$(SHARED) $(OUT)/libkupaldiz_check.a $(OUT)/libkupaldiz_netbsd.a $(OUT)/$(NETBSD_SHARED)

WAITING_OBJECTS = $(patsubst c/src/waiting/%.c,$(OUT)/installed-waiting/%.o,$(wildcard c/src/waiting/*.c))
CHECKED_OBJECTS = $(WAITING_OBJECTS:$(OUT)/installed-waiting/%=$(OUT)/installed-check/%) $(TABLE_OBJECTS:$(OUT)/installed-table/%=$(OUT)/installed-check/table/%) \
    $(OUT)/installed-check/check.o $(OUT)/installed-check/check_table.o
WAITING_MADE_OF = $(wildcard c/src/waiting/*.h) c/include/kupaldiz_waiting.h $(FACE) packaging/places.mk packaging/install.mk

$(WAITING_OBJECTS): $(OUT)/installed-waiting/%.o: c/src/waiting/%.c $(WAITING_MADE_OF) | $(OUT)
	mkdir -p $(@D)
	$(CC) $(COMPILED) -Ic/include -c -o $@ $<

TABLE_OBJECTS = $(patsubst c/src/table/%.c,$(OUT)/installed-table/%.o,$(wildcard c/src/table/*.c))
TABLE_MADE_OF = $(wildcard c/src/table/*.h) c/include/kupaldiz_table.h $(WAITING_MADE_OF)

$(TABLE_OBJECTS): $(OUT)/installed-table/%.o: c/src/table/%.c $(TABLE_MADE_OF) | $(OUT)
	mkdir -p $(@D)
	$(CC) $(COMPILED) -Ic/include -c -o $@ $<

$(OUT)/libkupaldiz.a: $(ARCHIVE) $(WAITING_OBJECTS) $(TABLE_OBJECTS)
	rm -rf $@ $(OUT)/installed-archive
	mkdir -p $(OUT)/installed-archive
	cd $(OUT)/installed-archive && $(AR) x $(if $(filter /%,$(ARCHIVE)),$(ARCHIVE),"$$OLDPWD"/$(ARCHIVE))
	$(AR) rcsD $@ $(OUT)/installed-archive/*.o $(WAITING_OBJECTS) $(TABLE_OBJECTS)

# The calls that wait, and those of tables, are in it once more, by names of their own: these are told, too.
$(WAITING_OBJECTS:$(OUT)/installed-waiting/%=$(OUT)/installed-check/%): $(OUT)/installed-check/%.o: c/src/waiting/%.c
$(TABLE_OBJECTS:$(OUT)/installed-table/%=$(OUT)/installed-check/table/%): $(OUT)/installed-check/table/%.o: c/src/table/%.c
$(OUT)/installed-check/check.o: c/src/check.c
$(OUT)/installed-check/check.o: c/src/records.h
$(OUT)/installed-check/check_table.o: c/src/check_table.c
$(CHECKED_OBJECTS): $(MADE_OF_CALLS) $(TABLE_MADE_OF) | $(OUT)
	mkdir -p $(@D)
	$(CC) $(COMPILED) -DKUPALDIZ_CHECK -Ic/include -I$(MADE_HEADERS) -c -o $@ $(filter %.c,$^)

$(OUT)/libkupaldiz_check.a: $(CHECKED_OBJECTS)
	rm -f $@
	$(AR) rcsD $@ $^

# A thread that has called the layer runs code of it at its end, and others may be in a call: a library stays where it is.
$(OUT)/$(SHARED): $(OUT)/libkupaldiz.a packaging/kupaldiz.map packaging/install.mk
	$(CC) $(LINKED) -o $@ -Wl,-soname,$(SONAME) -Wl,--version-script=packaging/kupaldiz.map \
	    -Wl,--whole-archive $(OUT)/libkupaldiz.a -Wl,--no-whole-archive -pthread

$(NETBSD_OBJECTS): $(OUT)/installed-netbsd/%.o: netbsd/src/%.c netbsd/src/layer.h $(addprefix $(LAYER_HEADERS)/,$(NETBSD_HEADERS)) packaging/places.mk packaging/install.mk
	mkdir -p $(OUT)/installed-netbsd
	$(CC) $(COMPILED) -D_GNU_SOURCE -I$(LAYER_HEADERS) -c -o $@ $<

# One object, from which the calls alone are seen: what the layer's parts name among them clashes with no name of a program.
$(OUT)/libkupaldiz_netbsd.a: $(NETBSD_OBJECTS)
	rm -f $@ $(OUT)/kupaldiz_netbsd.o
	$(CC) -r -nostdlib -o $(OUT)/kupaldiz_netbsd.o $^
	$(OBJCOPY) --wildcard --keep-global-symbol='kupaldiz_*' $(OUT)/kupaldiz_netbsd.o
	$(AR) rcsD $@ $(OUT)/kupaldiz_netbsd.o

$(OUT)/$(NETBSD_SHARED): $(OUT)/libkupaldiz_netbsd.a netbsd/netbsd.map packaging/install.mk
	$(CC) $(LINKED) -o $@ -Wl,-soname,$(NETBSD_SONAME) -Wl,--version-script=netbsd/netbsd.map \
	    -Wl,--whole-archive $(OUT)/libkupaldiz_netbsd.a -Wl,--no-whole-archive -pthread

# The public names: those of the headers, of the maps, and of what was built.
symbols: library
	NM=$(CROSS)nm packaging/symbols.sh $(HEADER) $(MADE_HEADERS) $(OUT) '$(BUILD)' $(VERSION)

install: library pages install-examples
	$(INSTALL) -d $(DESTDIR)$(PKGCONFIGDIR) $(DESTDIR)$(CMAKEDIR) $(NETBSD_FOLDERS:%=$(DESTDIR)$(INCLUDEDIR)/kupaldiz/netbsd/%) \
	    $(DESTDIR)$(MANDIR)/man3 $(DESTDIR)$(MANDIR)/man7 $(DESTDIR)$(DOCDIR)
	$(INSTALL) -m 644 $(OUT)/libkupaldiz.a $(DESTDIR)$(LIBDIR)/libkupaldiz.a
	$(INSTALL) -m 644 $(OUT)/libkupaldiz_check.a $(DESTDIR)$(LIBDIR)/libkupaldiz_check.a
	$(INSTALL) -m 755 $(OUT)/$(SHARED) $(DESTDIR)$(LIBDIR)/$(SHARED)
	ln -sf $(SHARED) $(DESTDIR)$(LIBDIR)/$(SONAME)
	ln -sf $(SONAME) $(DESTDIR)$(LIBDIR)/libkupaldiz.so
	$(INSTALL) -m 644 $(FACE) $(C_HEADERS) $(DESTDIR)$(INCLUDEDIR)/
	$(INSTALL) -m 644 $(OUT)/libkupaldiz_netbsd.a $(DESTDIR)$(LIBDIR)/libkupaldiz_netbsd.a
	$(INSTALL) -m 755 $(OUT)/$(NETBSD_SHARED) $(DESTDIR)$(LIBDIR)/$(NETBSD_SHARED)
	ln -sf $(NETBSD_SHARED) $(DESTDIR)$(LIBDIR)/$(NETBSD_SONAME)
	ln -sf $(NETBSD_SONAME) $(DESTDIR)$(LIBDIR)/libkupaldiz_netbsd.so
	for header in $(NETBSD_HEADERS); do $(INSTALL) -m 644 $(LAYER_HEADERS)/$$header $(DESTDIR)$(INCLUDEDIR)/kupaldiz/netbsd/$$header; done
	$(call pc_of,kupaldiz)
	$(call pc_of,kupaldiz-check)
	$(call pc_of,kupaldiz-netbsd)
	$(filled) -e "s|@TO_INCLUDE@|$$(realpath -m --relative-to=$(CMAKEDIR) $(INCLUDEDIR))|" packaging/kupaldizConfig.cmake.in >$(DESTDIR)$(CMAKEDIR)/kupaldizConfig.cmake
	$(filled) packaging/kupaldizConfigVersion.cmake.in >$(DESTDIR)$(CMAKEDIR)/kupaldizConfigVersion.cmake
	$(foreach page,$(PAGES),$(call install_page,$(page),$(call named_by,$(page))))
	$(foreach page,$(NETBSD_PAGES),$(call install_page,$(page),$(call netbsd_named_by,$(page))))
	$(INSTALL) -m 644 man/kupaldiz.7 man/kupaldiz_netbsd.7 $(DESTDIR)$(MANDIR)/man7/
	$(INSTALL) -m 644 packaging/VERSIONS.md $(DESTDIR)$(DOCDIR)/

# In a .pc file a blank is written as in a shell, and sed takes a \ of its own. Whatever umask there is, everyone may read what is installed.
in_sed = $(subst \,\\,$(1))
filled = umask 022; sed -e 's|@LIBDIR@|$(call in_sed,$(LIBDIR))|' -e 's|@INCLUDEDIR@|$(call in_sed,$(INCLUDEDIR))|' \
    -e 's|^\([a-z]*dir\)=$(call in_sed,$(PREFIX))/|\1=$${prefix}/|' -e 's|@PREFIX@|$(call in_sed,$(PC_PREFIX))|' \
    -e 's|@VERSION@|$(VERSION)|' -e 's|@BUILD@|$(BUILD)|' -e 's|@ABI@|$(ABI)|' -e 's|@LICENCE@|$(LICENCE)|' $(if $(LICENCE),,-e '/^License: *$$/d')

# The .pc file of a library: what it says, and the compiler's flags.
SAYS_kupaldiz = Table of names whose readers take no lock, and whose removals name the holder
FLAGS_kupaldiz = -I$${includedir}
SAYS_kupaldiz-check = kupaldiz, where each misuse of a call is told
FLAGS_kupaldiz-check = -DKUPALDIZ_CHECK
SAYS_kupaldiz-netbsd = pserialize(9), psref(9) and localcount(9) for threads, under their own names
FLAGS_kupaldiz-netbsd = -I$${includedir}/kupaldiz/netbsd
pc_of = $(filled) -e 's|@NAME@|$(1)|' -e 's|@SAYS@|$(SAYS_$(1))|' -e 's|@FLAGS@|$(FLAGS_$(1))|' -e 's|@LIBRARY@|$(subst -,_,$(1))|' \
    $(if $(filter %-check,$(1)),,-e '/^Requires/d') packaging/kupaldiz.pc.in >$(DESTDIR)$(PKGCONFIGDIR)/$(1).pc

# What an older version with the same soname has left: nothing asks for it by its whole number.
install: without_older
without_older: library
	rm -f $(DESTDIR)$(LIBDIR)/$(SONAME).* $(DESTDIR)$(LIBDIR)/$(NETBSD_SONAME).*
	rm -f $(addprefix $(DESTDIR)$(PKGCONFIGDIR)/,kupaldiz.pc kupaldiz-check.pc kupaldiz-netbsd.pc)

# install_page PAGE,CALLS: a page, and for each call that it names a page of one line that leads to it.
define install_page
$(INSTALL) -m 644 $(MADE_PAGES)/$(1).3 $(DESTDIR)$(MANDIR)/man3/$(1).3
umask 022; for call in $(2); do echo ".so man3/$(1).3" >$(DESTDIR)$(MANDIR)/man3/$$call.3$(MANSUFFIX); done

endef

install-examples:
	packaging/examples.sh $(DESTDIR)$(EXAMPLESDIR)

# Builds programs over what is installed, by pkg-config alone, and runs them: with the words that `make install` had.
installcheck:
	CC='$(CC)' RUN='$(RUN)' packaging/installcheck.sh $(DESTDIR) $(LIBDIR) $(VERSION)

# Takes away what install has put there, and the folders that are the libraries' alone.
uninstall: pages
	rm -f $(addprefix $(DESTDIR)$(LIBDIR)/,libkupaldiz.a libkupaldiz_check.a $(SHARED) $(SONAME) libkupaldiz.so pkgconfig/kupaldiz.pc pkgconfig/kupaldiz-check.pc)
	rm -f $(addprefix $(DESTDIR)$(LIBDIR)/,libkupaldiz_netbsd.a $(NETBSD_SHARED) $(NETBSD_SONAME) libkupaldiz_netbsd.so pkgconfig/kupaldiz-netbsd.pc)
	rm -f $(addprefix $(DESTDIR)$(CMAKEDIR)/,kupaldizConfig.cmake kupaldizConfigVersion.cmake)
	rm -f $(addprefix $(DESTDIR)$(INCLUDEDIR)/kupaldiz/netbsd/,$(NETBSD_HEADERS))
	rm -f $(addprefix $(DESTDIR)$(INCLUDEDIR)/,kupaldiz.h kupaldiz_limits.h $(notdir $(C_HEADERS)))
	rm -f $(addprefix $(DESTDIR)$(MANDIR)/man3/,$(foreach page,$(PAGES),$(page).3 $(addsuffix .3$(MANSUFFIX),$(call named_by,$(page)))))
	rm -f $(addprefix $(DESTDIR)$(MANDIR)/man3/,$(foreach page,$(NETBSD_PAGES),$(page).3 $(addsuffix .3$(MANSUFFIX),$(call netbsd_named_by,$(page)))))
	rm -f $(addprefix $(DESTDIR)$(MANDIR)/man7/,kupaldiz.7 kupaldiz_netbsd.7)
	rm -f $(DESTDIR)$(DOCDIR)/VERSIONS.md
	packaging/examples.sh --remove $(DESTDIR)$(EXAMPLESDIR)
	-rmdir $(NETBSD_FOLDERS:%=$(DESTDIR)$(INCLUDEDIR)/kupaldiz/netbsd/%) $(DESTDIR)$(INCLUDEDIR)/kupaldiz/netbsd $(DESTDIR)$(INCLUDEDIR)/kupaldiz \
	    $(DESTDIR)$(CMAKEDIR) $(DESTDIR)$(DOCDIR)

# The source of a release, with the archives of all processors that there are: kupaldiz-VERSION.tar.xz in out/.
dist:
	packaging/dist.sh $(OUT)

version:
	@echo $(VERSION)

soname:
	@echo $(SONAME)

licence:
	@echo $(LICENCE)

.PHONY: pages library symbols install install-examples without_older installcheck uninstall dist version soname licence

include explorer/install.mk
