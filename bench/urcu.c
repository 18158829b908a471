/* Read-side sections of liburcu: its default flavour, which has the writer send barriers to the readers; the one whose readers make their own
   barriers, as our sections do; the one that asks no registration of a thread; and the one whose readers do nothing but say, between sections,
   that they are in none. They say so here as each section ends. */
#define _LGPL_SOURCE
#include <urcu/urcu-bp.h>
#include <urcu/urcu-mb.h>
#include <urcu/urcu-memb.h>
#include <urcu/urcu-qsbr.h>

#include "entries.h"

/* The functions of one flavour, and its contender. A section ends with the statement LEAVE, and before a thread sleeps it says REST. */
#define FLAVOUR(NAME, TITLE, LEAVE, REST) \
    static void NAME##_begin(unsigned thread) \
    { \
        (void)thread; \
        urcu_##NAME##_register_thread(); \
    } \
    static void NAME##_end(unsigned thread) \
    { \
        (void)thread; \
        urcu_##NAME##_unregister_thread(); \
    } \
    static void NAME##_rest(unsigned thread) \
    { \
        (void)thread; \
        REST; \
    } \
    LISTED_LOOKUPS(NAME, urcu_##NAME##_read_lock(), LEAVE) \
    LISTED_CHANGES(NAME, urcu_##NAME##_synchronize_rcu()) \
    const struct contender urcu_##NAME = { \
        .name = TITLE, \
        .open = make_list, \
        .begin = NAME##_begin, \
        .end = NAME##_end, \
        .rest = NAME##_rest, \
        LOOKUPS_OF(NAME), \
        CHANGES_OF(NAME), \
    }

FLAVOUR(memb, "urcu-memb", urcu_memb_read_unlock(), );
FLAVOUR(mb, "urcu-mb", urcu_mb_read_unlock(), );
FLAVOUR(bp, "urcu-bp", urcu_bp_read_unlock(), );
FLAVOUR(qsbr, "urcu-qsbr", urcu_qsbr_read_unlock(); urcu_qsbr_quiescent_state(), urcu_qsbr_thread_offline());
