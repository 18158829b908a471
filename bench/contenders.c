/* Runs one contender, and prints its nanoseconds an operation on one line. */
#include "common.h"

#include <stdio.h>
#include <string.h>

static const struct contender *const contenders[] = {
    &hand_padded, &hand_packed, &hand_pointed, &hand_kept, &hand_called, &urcu_memb,
    &urcu_mb, &urcu_bp, &urcu_qsbr, &epoch, &rwlock, &mutex,
#ifdef WITH_DPDK
    &dpdk_qsbr,
#endif
#ifdef WITH_XENIUM
    &xenium_epoch,
#endif
};

enum { CONTENDERS = sizeof contenders / sizeof contenders[0] };

int main(int argc, char **argv)
{
    for (unsigned i = 0; i < CONTENDERS; i++)
        if (argc > 1 && strcmp(contenders[i]->name, argv[1]) == 0) {
            run_contender(contenders[i], argc - 2, argv + 2);
            return 0;
        }
    fprintf(stderr, "usage: contenders CONTENDER WORDS, of these:");
    for (unsigned i = 0; i < CONTENDERS; i++)
        fprintf(stderr, " %s", contenders[i]->name);
    fprintf(stderr, "\n");
    return 2;
}
