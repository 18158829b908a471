# The programs in C. `make` builds them in out/, beside libkupaldiz_proved.a; `make check` runs them briefly; `make sanitized` builds them once more, so that
# the compiler's checks of addresses and of undefined behaviour are in the client's code.

INCLUDES = -Ic/include -I$(MADE_HEADERS) -Ic/examples -Ic/tests -I$(HEADER)
WRAP = -Wl,--wrap=malloc,--wrap=realloc,--wrap=free

# The modules of kupaldiz_waiting.h, with what they share.
WAITING = $(wildcard c/src/waiting/*.[ch])
# Those of kupaldiz_table.h, which are over them.
TABLE = $(wildcard c/src/table/*.[ch]) c/include/kupaldiz_table.h

# What they share: examples, and tests.
SHARED_HEADERS = c/examples/example.h c/tests/client.h c/examples/expect.h

# Where the programs lie.
vpath %.c c/examples c/tests bench

PROGRAMS = smallest walk packet shared misuse allocs built $(OVER_WAITING) turns script history names forwarder device_switch $(PROGRAMS_$(PROCESSOR)) $(BENCHED)
# Tests of kupaldiz_waiting.h: each is compiled with it.
OVER_WAITING = deferred together interrupted reclaims lent replaces $(OVER_TABLE)
# An example of kupaldiz_table.h and its tests.
OVER_TABLE = table table_calls table_choice table_model
# They read registers of x86-64.
PROGRAMS_x86_64 = recalls
# A release's source has no bench.
BENCH = bench
BENCHED = $(if $(wildcard $(BENCH)/common.c),speed changes)
# In the checking build, too, which says nothing of them.
CHECKING = smallest walk packet shared forwarder device_switch together table table_model

all: $(PROGRAMS:%=$(OUT)/%) $(OUT)/checked $(CHECKING:%=$(OUT)/checked-%)

$(OUT):
	mkdir -p $@

# Each is made of its own file, and of these.
$(PROGRAMS:%=$(OUT)/%): $(OUT)/%: %.c
$(addprefix $(OUT)/,deferred history): c/tests/dice.h
$(addprefix $(OUT)/,misuse sanitized-misuse): c/tests/child.h
$(OUT)/allocs: c/src/heap.c
$(addprefix $(OUT)/,deferred history allocs recalls): c/tests/wrapped_heap.h
$(addprefix $(OUT)/,history allocs): LINK = $(WRAP)
$(OUT)/deferred: LINK = -Wl,--wrap=kupaldiz_destroy
$(addprefix $(OUT)/,shared forwarder device_switch turns speed $(OVER_WAITING)): $(WAITING) c/include/kupaldiz_waiting.h
$(foreach way,$(OUT)/ $(OUT)/sanitized- $(OUT)/raced-,$(addprefix $(way),$(OVER_TABLE))): $(TABLE)
$(foreach way,$(OUT)/ $(OUT)/sanitized-,$(way)table_choice $(way)table_calls): c/tests/both_forms.h c/tests/wrapped_heap.h
$(OUT)/table_choice $(OUT)/sanitized-table_choice: LINK = -Wl,--wrap=getrandom
$(OUT)/table_calls $(OUT)/sanitized-table_calls: LINK = -Wl,--wrap=getrandom,--wrap=malloc,--wrap=calloc,--wrap=aligned_alloc,--wrap=pthread_key_create,--wrap=pthread_setspecific
$(OUT)/forwarder $(OUT)/device_switch: c/examples/workers.h
$(OUT)/recalls: STRICT = -std=c11 -D_GNU_SOURCE -mno-red-zone $(WARNINGS)
$(OUT)/recalls: LINK = -Wl,--wrap=malloc
$(addprefix $(OUT)/,reclaims sanitized-reclaims raced-reclaims): LINK = -Wl,--wrap=malloc,--wrap=pthread_create,--wrap=pthread_cond_init \
    -Wl,--wrap=clock_gettime,--wrap=pthread_cond_wait,--wrap=pthread_cond_timedwait
$(addprefix $(OUT)/,interrupted raced-interrupted): LINK = -Wl,--wrap=nanosleep,--wrap=pthread_cond_wait,--wrap=pthread_cond_timedwait \
    -Wl,--wrap=pthread_join
$(OUT)/lent $(OUT)/sanitized-lent: LINK = -Wl,--wrap=malloc,--wrap=pthread_condattr_init,--wrap=pthread_cond_init,--wrap=pthread_key_create,--wrap=pthread_setspecific
$(OUT)/turns: c/tests/pauses.h c/tests/dice.h c/tests/child.h
$(OUT)/turns: CFLAGS += -include c/tests/pauses.h
$(OUT)/turns: LINK = -Wl,--wrap=kupaldiz_destroy,--wrap=kupaldiz_perform_begin,--wrap=kupaldiz_perform_turn,--wrap=clock_gettime,--wrap=nanosleep,--wrap=sched_yield \
    -Wl,--wrap=kupaldiz_try_release_local,--wrap=kupaldiz_release_local_locked,--wrap=pthread_mutex_lock,--wrap=pthread_mutex_unlock
$(OUT)/speed: $(BENCH)/common.c $(BENCH)/entries.c $(BENCH)/waiting.c $(BENCH)/common.h $(BENCH)/entries.h
$(OUT)/speed: STRICT = -std=c11 -D_POSIX_C_SOURCE=200809L -I$(BENCH) -Wall -Wextra $(WERROR)

$(PROGRAMS:%=$(OUT)/%): $(SHARED_HEADERS) $(FACE) $(ARCHIVE) | $(OUT)
	$(CC) $(STRICT) $(CPPFLAGS) $(CFLAGS) $(INCLUDES) $(LDFLAGS) -o $@ $(filter %.c,$^) $(ARCHIVE) -pthread $(LINK)

# The checking build: the test of what it tells, and programs that it says nothing of.
$(OUT)/checked: c/tests/checked.c c/tests/child.h c/tests/wrapped_heap.h
$(OUT)/checked: LINK = -Wl,--wrap=kupaldiz_find
$(CHECKING:%=$(OUT)/checked-%): $(OUT)/checked-%: %.c
$(addprefix $(OUT)/,checked checked-table checked-table_model): c/src/check_table.c $(TABLE)

$(OUT)/checked $(CHECKING:%=$(OUT)/checked-%): c/src/check.c c/src/records.h $(MADE_OF_CALLS) $(WAITING) c/include/kupaldiz_waiting.h $(SHARED_HEADERS) c/examples/workers.h $(FACE) $(ARCHIVE) | $(OUT)
	$(CC) $(STRICT) $(CPPFLAGS) $(CFLAGS) -DKUPALDIZ_CHECK $(INCLUDES) $(LDFLAGS) -o $@ $(filter %.c,$^) $(ARCHIVE) -pthread $(LINK)

# history is brief without an allocator of its own, which the sanitizers' would fight.
SANITIZED = smallest walk packet shared misuse built history names forwarder device_switch $(WAITING_SANITIZED)
# The address sanitizer takes the stack of a cancelled thread for one in use.
WAITING_SANITIZED = reclaims lent replaces $(OVER_TABLE)

sanitized: $(SANITIZED:%=$(OUT)/sanitized-%)

$(SANITIZED:%=$(OUT)/sanitized-%): $(OUT)/sanitized-%: %.c

$(addprefix $(OUT)/sanitized-,shared forwarder device_switch $(WAITING_SANITIZED)): $(WAITING)

# What is C of the archive is compiled with the test that sees it. It comes first, so the archive's own isn't called.
$(OUT)/sanitized-names: c/src/strings.c $(MADE_HEADERS)/texts.h
$(OUT)/sanitized-history: c/tests/dice.h c/tests/wrapped_heap.h
$(OUT)/sanitized-history: CPPFLAGS += -DHISTORY_BRIEFLY
$(OUT)/sanitized-names: LINK = -Wl,-z,muldefs

$(SANITIZED:%=$(OUT)/sanitized-%): $(SHARED_HEADERS) c/include/kupaldiz_waiting.h c/examples/workers.h $(FACE) $(ARCHIVE) | $(OUT)
	$(CC) $(STRICT) $(CPPFLAGS) -O1 -g $(checker_address) $(INCLUDES) -o $@ $(filter %.c,$^) $(ARCHIVE) -pthread $(LINK)

# together for each of three checkers (valgrind takes the first), right and with either early free, which each of them has to catch.
STRESSES = $(foreach checker,none address thread,$(foreach when,right early unperformed,$(OUT)/together-$(checker)-$(when)))
checker_address = -fsanitize=address,undefined -fno-sanitize-recover=all
checker_thread = -fsanitize=thread
when_early = -DFREE_TOO_EARLY
when_unperformed = -DFREE_BEFORE_PERFORMED

# The edges of the archive are told to the thread sanitizer by the program. It knows no thread after a fork.
RACED = reclaims interrupted replaces table_model

stresses: $(STRESSES) $(RACED:%=$(OUT)/raced-%)

$(RACED:%=$(OUT)/raced-%): $(OUT)/raced-%: c/tests/%.c
$(RACED:%=$(OUT)/raced-%): WATCHED = $(checker_thread)
$(STRESSES): c/tests/together.c
$(STRESSES): WATCHED = $(checker_$(word 2,$(subst -, ,$(notdir $@)))) $(when_$(word 3,$(subst -, ,$(notdir $@))))

$(STRESSES) $(RACED:%=$(OUT)/raced-%): $(WAITING) c/include/kupaldiz_waiting.h $(MADE_OF_CALLS) $(SHARED_HEADERS) $(FACE) $(ARCHIVE) | $(OUT)
	$(CC) $(STRICT) -O1 -g $(WATCHED) $(INCLUDES) $(LDFLAGS) -o $@ $(filter %.c,$^) $(ARCHIVE) -pthread $(LINK)

# Tests of one thread, of which each access to a registry's table is looked at: for aarch64 alone.
ORDERED = misuse history

ordered: $(ORDERED:%=$(OUT)/ordered-%)

$(OUT)/ordered-history: c/tests/dice.h

$(ORDERED:%=$(OUT)/ordered-%): $(OUT)/ordered-%: %.c c/tests/ordered.c $(SHARED_HEADERS) c/tests/wrapped_heap.h $(FACE) $(ARCHIVE)
	$(CC) -std=c11 -D_GNU_SOURCE -DHISTORY_BRIEFLY $(WARNINGS) $(CPPFLAGS) $(CFLAGS) $(INCLUDES) $(LDFLAGS) -o $@ $(filter %.c,$^) $(ARCHIVE) -pthread \
	    -Wl,--wrap=malloc,--wrap=free,--wrap=kupaldiz_open

# What ends with status 0 where it finds nothing wrong, with the words that make it brief; and the names of the pages, plain.
CHECKED = smallest walk packet shared checked misuse built turns $(OVER_WAITING) history names forwarder device_switch
words_history = 300000
words_together = 20
words_replaces = 1000
words_table_model = 2000
words_forwarder = 200
words_device_switch = 20
NETBSD_CHECKED = threads drivers model kernel

check: $(CHECKED:%=check-%) check-limits $(NETBSD_CHECKED:%=check-netbsd-%)
	@echo "$(words $^) passed, 0 failed"

$(CHECKED:%=check-%): check-%: $(OUT)/%
	$(RUN) ./$< $(words_$*)

# Programs that are compiled for other limits than the archive's.
check-limits: $(ARCHIVE)
	CC='$(CC)' RUN='$(RUN)' packaging/other-limits.sh $(HEADER) $(ARCHIVE)

# One make at a time builds the layer.
netbsd-programs:
	$(MAKE) -C netbsd plain

$(NETBSD_CHECKED:%=check-netbsd-%): check-netbsd-%: netbsd-programs
	$(RUN) ./$(OUT)/netbsd/plain/$*

clean:
	rm -f $(PROGRAMS:%=$(OUT)/%) $(OUT)/checked $(CHECKING:%=$(OUT)/checked-%) $(SANITIZED:%=$(OUT)/sanitized-%) $(STRESSES) $(RACED:%=$(OUT)/raced-%) $(ORDERED:%=$(OUT)/ordered-%)
	rm -f $(filter-out $(ARCHIVE) $(OUT)/libkupaldiz.proved,$(wildcard $(OUT)/libkupaldiz*))
	rm -rf $(OUT)/installed-waiting $(OUT)/installed-table $(OUT)/installed-check $(OUT)/installed-netbsd $(OUT)/installed-explorer

.PHONY: all sanitized stresses ordered clean check check-limits netbsd-programs $(CHECKED:%=check-%) $(NETBSD_CHECKED:%=check-netbsd-%)
