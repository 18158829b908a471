# The explorer, which is installed beside the libraries of packaging/install.mk: libkupaldiz_explorer has the calls of the pages' names, too, so a program is linked
# with it or with libkupaldiz_netbsd. It is for x86_64 alone: a switch from stack to stack is made of that processor's instructions.

SAYS_kupaldiz-explorer = the threads of a driver in every order, over the calls of kupaldiz-netbsd
FLAGS_kupaldiz-explorer = -DKUPALDIZ_EXPLORER -I$${includedir} -I$${includedir}/kupaldiz/netbsd
EXPLORER_SONAME = libkupaldiz_explorer.so.$(ABI)
EXPLORER_SHARED = libkupaldiz_explorer.so.$(VERSION)
EXPLORER_FOLDER = $(OUT)/installed-explorer
EXPLORER_HEADERS = explorer/explorer.h $(wildcard explorer/src/*.h netbsd/src/*.h) $(addprefix $(LAYER_HEADERS)/,$(NETBSD_HEADERS))
EXPLORER_LAYER = $(filter-out $(EXPLORER_INSTEAD:%=netbsd/src/%.c),$(wildcard netbsd/src/*.c))
EXPLORER_OWN = $(wildcard explorer/src/*.c)
EXPLORER_OBJECTS = $(EXPLORER_OWN:explorer/src/%.c=$(EXPLORER_FOLDER)/explorer-%.o) $(EXPLORER_LAYER:netbsd/src/%.c=$(EXPLORER_FOLDER)/layer-%.o)
EXPLORER_COMPILED = $(CPPFLAGS) $(filter-out -flto%,$(CFLAGS)) $(EXPLORER_STRICT) -fPIC -Iexplorer -I$(LAYER_HEADERS) -Inetbsd/src
EXPLORER_LINKED = $(filter-out $(LINKED_$(PROCESSOR)),$(LINKED))
EXPLORER_MADE_BY = packaging/places.mk packaging/install.mk explorer/install.mk

ifeq ($(PROCESSOR),x86_64)
library: $(OUT)/libkupaldiz_explorer.a $(OUT)/$(EXPLORER_SHARED)
install: install_explorer
endif

$(EXPLORER_FOLDER)/names: explorer/src/calls.c explorer/src/more_calls.c
	mkdir -p $(EXPLORER_FOLDER)
	$(EXPLORER_WRAPPED)

$(EXPLORER_OWN:explorer/src/%.c=$(EXPLORER_FOLDER)/explorer-%.o): $(EXPLORER_FOLDER)/explorer-%.o: explorer/src/%.c $(EXPLORER_HEADERS) $(EXPLORER_FOLDER)/names $(EXPLORER_MADE_BY)
	$(CC) $(EXPLORER_COMPILED) -c -o $@ $<

# What the explorer wraps is called layer_.. in it.
$(EXPLORER_LAYER:netbsd/src/%.c=$(EXPLORER_FOLDER)/layer-%.o): $(EXPLORER_FOLDER)/layer-%.o: netbsd/src/%.c $(EXPLORER_HEADERS) $(EXPLORER_FOLDER)/names $(EXPLORER_MADE_BY)
	$(CC) $(EXPLORER_COMPILED) -Iexplorer/src -include explorer/src/shim.h -c -o $@.own $<
	$(OBJCOPY) --redefine-syms=$(EXPLORER_FOLDER)/names $@.own $@
	rm -f $@.own

# The map of all that the library shows: in the node of each version the calls of the pages' names that it brought, too.
$(EXPLORER_FOLDER)/map: netbsd/netbsd.map explorer/explorer.map explorer/install.mk
	mkdir -p $(EXPLORER_FOLDER)
	awk '/^KUPALDIZ_/ { version = $$1; sub(/.*_/, "", version) } FNR == NR { if (/^\t\tkupaldiz_/) names[version] = names[version] $$0 "\n"; next } \
	    { print } /^\tglobal:/ { printf "%s", names[version] }' netbsd/netbsd.map explorer/explorer.map >$@

# One object, from which the calls of its map are seen, and no other name.
$(OUT)/libkupaldiz_explorer.a: $(EXPLORER_OBJECTS) $(EXPLORER_FOLDER)/map
	rm -f $@ $(OUT)/kupaldiz_explorer.o
	$(CC) -r -nostdlib -o $(OUT)/kupaldiz_explorer.o $(EXPLORER_OBJECTS)
	sed -n 's/^\t\t\([a-z_][a-z0-9_]*\*\?\);$$/\1/p' $(EXPLORER_FOLDER)/map >$(EXPLORER_FOLDER)/shown
	$(OBJCOPY) --wildcard --keep-global-symbols=$(EXPLORER_FOLDER)/shown $(OUT)/kupaldiz_explorer.o
	$(AR) rcsD $@ $(OUT)/kupaldiz_explorer.o

$(OUT)/$(EXPLORER_SHARED): $(OUT)/libkupaldiz_explorer.a $(EXPLORER_FOLDER)/map $(EXPLORER_MADE_BY)
	$(CC) $(EXPLORER_LINKED) -o $@ -Wl,-soname,$(EXPLORER_SONAME) -Wl,--version-script=$(EXPLORER_FOLDER)/map \
	    -Wl,--whole-archive $(OUT)/libkupaldiz_explorer.a -Wl,--no-whole-archive -pthread

install_explorer: library
	$(INSTALL) -d $(DESTDIR)$(PKGCONFIGDIR) $(DESTDIR)$(INCLUDEDIR)/kupaldiz $(DESTDIR)$(MANDIR)/man7
	rm -f $(DESTDIR)$(LIBDIR)/$(EXPLORER_SONAME).* $(DESTDIR)$(PKGCONFIGDIR)/kupaldiz-explorer.pc
	$(INSTALL) -m 644 $(OUT)/libkupaldiz_explorer.a $(DESTDIR)$(LIBDIR)/libkupaldiz_explorer.a
	$(INSTALL) -m 755 $(OUT)/$(EXPLORER_SHARED) $(DESTDIR)$(LIBDIR)/$(EXPLORER_SHARED)
	ln -sf $(EXPLORER_SHARED) $(DESTDIR)$(LIBDIR)/$(EXPLORER_SONAME)
	ln -sf $(EXPLORER_SONAME) $(DESTDIR)$(LIBDIR)/libkupaldiz_explorer.so
	$(INSTALL) -m 644 explorer/explorer.h $(DESTDIR)$(INCLUDEDIR)/kupaldiz/explorer.h
	$(call pc_of,kupaldiz-explorer)
	$(INSTALL) -m 644 man/kupaldiz_explorer.7 $(DESTDIR)$(MANDIR)/man7/kupaldiz_explorer.7

# Before the folders are taken away, what is in them.
uninstall: uninstall_explorer
uninstall_explorer:
	rm -f $(addprefix $(DESTDIR)$(LIBDIR)/,libkupaldiz_explorer.a $(EXPLORER_SHARED) $(EXPLORER_SONAME) libkupaldiz_explorer.so pkgconfig/kupaldiz-explorer.pc)
	rm -f $(DESTDIR)$(INCLUDEDIR)/kupaldiz/explorer.h $(DESTDIR)$(MANDIR)/man7/kupaldiz_explorer.7

.PHONY: install_explorer uninstall_explorer
