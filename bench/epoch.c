/* Sections of Concurrency Kit's ck_epoch. */
#include <ck_epoch.h>

#include "entries.h"

static ck_epoch_t global;
/* One for each thread that reads, and one for the thread that changes the list. */
static ck_epoch_record_t records[MOST_THREADS + 1];

static void open_epoch(const struct plan *plan)
{
    make_list(plan);
    ck_epoch_init(&global);
    for (unsigned i = 0; i < plan->threads; i++)
        ck_epoch_register(&global, &records[i], NULL);
    ck_epoch_register(&global, &records[MOST_THREADS], NULL);
}

LISTED_LOOKUPS(epoch, ck_epoch_begin(&records[thread], NULL), ck_epoch_end(&records[thread], NULL))

LISTED_CHANGES(epoch, ck_epoch_synchronize(&records[MOST_THREADS]))

const struct contender epoch = {
    .name = "ck_epoch",
    .open = open_epoch,
    NOTHING_AROUND,
    LOOKUPS_OF(epoch),
    CHANGES_OF(epoch),
};
