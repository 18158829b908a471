// Sections of xenium's epochs, with the list in its own pointers. It has no call that waits until open sections have ended.
#include <array>

#include <xenium/reclamation/generic_epoch_based.hpp>

extern "C" {
#define _Noreturn [[noreturn]]
#include "common.h"

extern const struct contender xenium_epoch;
}

namespace {

using reclaimer = xenium::reclamation::generic_epoch_based<>;

struct node : reclaimer::enable_concurrent_ptr<node> {
    reclaimer::concurrent_ptr<node> next;
    copied entry;
};

using guard = reclaimer::concurrent_ptr<node>::guard_ptr;

reclaimer::concurrent_ptr<node> newest;

bool is_key(const key &a, const key &b)
{
    return a.kind == b.kind && a.high == b.high && a.low == b.low;
}

uint64_t find(const key &sought)
{
    guard at = xenium::acquire_guard(newest, std::memory_order_acquire);
    while (at) {
        if (is_key(at->entry.key, sought))
            return at->entry.value;
        guard next = xenium::acquire_guard(at->next, std::memory_order_acquire);
        at = std::move(next);
    }
    return UINT64_MAX;
}

unsigned copy_list(copied *row)
{
    unsigned count = 0;
    guard at = xenium::acquire_guard(newest, std::memory_order_acquire);
    while (at && count < MOST_ENTRIES) {
        row[count++] = at->entry;
        guard next = xenium::acquire_guard(at->next, std::memory_order_acquire);
        at = std::move(next);
    }
    return count;
}

void open(const struct plan *plan)
{
    make_keys(plan);
    newest.store(nullptr);
    for (unsigned i = 0; i < entries; i++) {
        auto *made = new node;
        made->entry = {i + 1u, keys[i], i};
        made->next.store(newest.load());
        newest.store(made);
    }
}

// So many lookups in turn, each section with so many of them.
uint64_t in_sections(uint64_t count, uint64_t most)
{
    uint64_t right = 0;
    unsigned i = 0;
    for (uint64_t left = count; left != 0;) {
        uint64_t many = left < most ? left : most;
        reclaimer::region_guard section;
        for (uint64_t made = 0; made < many; made++) {
            right += find(keys[i]) == i;
            i = i + 1 < entries ? i + 1 : 0;
        }
        left -= many;
    }
    return right;
}

uint64_t lookups(unsigned, uint64_t count)
{
    return in_sections(count, 1);
}

uint64_t batches(unsigned, uint64_t count)
{
    return in_sections(count, BATCH);
}

uint64_t walks(unsigned, uint64_t count)
{
    copied row[MOST_ENTRIES];
    uint64_t right = 0;
    for (uint64_t made = 0; made < count; made++) {
        reclaimer::region_guard section;
        unsigned met = copy_list(row);
        right += met == entries && row[0].value == entries - 1 && row[met - 1].value == 0;
    }
    return right;
}

} // namespace

const struct contender xenium_epoch = {
    .name = "xenium-epoch",
    .open = open,
    .begin = do_nothing,
    .end = do_nothing,
    .rest = do_nothing,
    .lookups = lookups,
    .batches = batches,
    .walks = walks,
};
