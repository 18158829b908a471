# Where the parts lie, in the repository and in the source of a release, and how the compiler is called. TOP is the folder above this one, with its /.
#
# CC, CPPFLAGS, CFLAGS, LDFLAGS and HARDENING are the caller's to set. With CC=aarch64-linux-gnu-gcc everything is built for that processor, and RUN runs it.

ifeq ($(origin CC),default)
CC = gcc
endif
CFLAGS ?= -O2 -g
CPPFLAGS ?=
LDFLAGS ?=
RUN ?=
# A release sets it empty: a later compiler may warn of more.
WERROR = -Werror
WARNINGS = -Wall -Wextra $(WERROR) -Wpedantic -Wshadow -Wconversion -Wstrict-prototypes
STRICT = -std=c11 -D_POSIX_C_SOURCE=200809L $(WARNINGS)

# The processor that the compiler is for, and what its other programs are called.
PROCESSOR := $(firstword $(subst -, ,$(shell $(CC) -dumpmachine 2>/dev/null)))
ifeq ($(PROCESSOR),)
$(error there is no compiler $(CC): apt-get install gcc, or CC=.. names another one)
endif
CROSS := $(patsubst %-gcc,%-,$(filter %-gcc,$(firstword $(CC))))
AR = $(CROSS)ar
OBJCOPY = $(CROSS)objcopy

# In the repository the header is the crate's, and archives are what tools/build-archive.sh makes. A release's source has both in folders of its own.
# LIMITS names the folder of an archive with other limits, which has the headers beside it: `make LIMITS=cpus-128` after `tools/build-archive.sh --cpus 128`.
LIMITS =
OUT := $(TOP)out$(if $(filter-out x86_64,$(PROCESSOR)),/$(PROCESSOR))$(LIMITS:%=/%)
HEADER := $(firstword $(if $(LIMITS),$(OUT)) $(wildcard $(TOP)include) $(TOP)crates/registry_c/include)
# What is proved, in C: its calls, and the limits of its build.
FACE = $(HEADER)/kupaldiz.h $(HEADER)/kupaldiz_limits.h
ARCHIVE := $(firstword $(wildcard $(TOP)archive/$(PROCESSOR)/libkupaldiz_proved.a) $(OUT)/libkupaldiz_proved.a)

# The headers of the pages' names, with those that are made.
LAYER_HEADERS := $(TOP)out/made/netbsd
$(shell $(TOP)netbsd/named.sh)

# What is made of each call of the headers, and the manual pages that are made of headers. In a
# release both are in the source.
IN_REPOSITORY := $(wildcard $(TOP)tools/call-headers.py)
MADE_HEADERS := $(TOP)$(if $(IN_REPOSITORY),out/made/c,c/include)
MADE_PAGES := $(TOP)$(if $(IN_REPOSITORY),out/made/man,man)
MADE_OF_CALLS = $(addprefix $(MADE_HEADERS)/,kupaldiz_check.h kupaldiz_tsan.h texts.h checked.h checked_table.h)
ifneq ($(IN_REPOSITORY),)
$(if $(shell find $(TOP)tools/call-headers.py $(TOP)tools/header-pages.py $(HEADER)/kupaldiz.h $(TOP)c/include/*.in $(TOP)c/include/kupaldiz_waiting.h $(TOP)c/include/kupaldiz_table.h \
    -newer $(MADE_HEADERS)/checked.h 2>&1),$(shell $(TOP)tools/call-headers.py make))
endif

# What the explorer is made of: for explorer/install.mk, which installs it, and for its Makefile, which tests it.
# A shadow stack knows nothing of a switch from stack to stack, so nothing says that the explorer may run with one.
EXPLORER_STRICT = -std=gnu11 -D_GNU_SOURCE -DKUPALDIZ_IN_EXPLORER $(filter-out -Wpedantic,$(WARNINGS)) -fcf-protection=none

# The layer's sources that the explorer has something else for.
EXPLORER_INSTEAD = lock softint_thread module_hook visits

# Writes, for each call of the layer that the explorer wraps, its name for the linker and what it is called in the explorer: layer_ and the call's own name.
EXPLORER_WRAPPED = sed -n 's/^\(LAYER\|WRAPPED\|AROUND\|ANSWERED\)([^,]*, \([a-z_]*\),.*/\2 layer_\2/p' $^ | sed '/^kupaldiz_/!s/^/kupaldiz_/' >$@

# What hardens the libraries. Of CET it is the shadow stack: the archive's calls return where they were called from, but have no endbr64.
HARDENING_x86_64 = -fcf-protection=full
HARDENING_aarch64 = -mbranch-protection=standard
LINKED_x86_64 = -Wl,-z,shstk
HARDENING = $(HARDENING_$(PROCESSOR))
LINK_HARDENING = -Wl,-z,relro,-z,now,-z,noexecstack $(LINKED_$(PROCESSOR))

$(if $(LIMITS),$(FACE)) $(ARCHIVE):
	@echo "there is no $@: tools/build-archive.sh$(if $(filter-out x86_64,$(PROCESSOR)), --for $(PROCESSOR))$(if $(LIMITS), for $(LIMITS)) proves and builds it, with the Rattle kit" >&2; exit 2
