#!/bin/sh
# Lays out the headers of the pages' names in out/made/netbsd: copies of those of include, as `rt ci`
# takes no link, and what is made. In sys that is each header that only gives one of kupaldiz the name
# that the pages include (one that is there stays); in kupaldiz names.h, from netbsd.map, and places.h,
# from the list below.
cd "$(dirname "$0")" || exit
here=$PWD made=$PWD/../out/made/netbsd
mkdir -p "$made/kupaldiz" "$made/sys" "$made/net" && cd include || exit
for header in */*.h; do
    cmp -s "$header" "$made/$header" || { cp -p "$header" "$made/$header.$$" && mv -f "$made/$header.$$" "$made/$header"; }
done
cd "$made/sys" || exit
while read -r header names; do
    for name in $names; do
        [ -f "$name.h" ] || {
            printf '/* sys/%s.h - under the name that the pages give it */\n#include "../kupaldiz/%s.h"\n' "$name" "$header" >"$name.$$" &&
                mv "$name.$$" "$name.h"
        }
    done
done <<'NAMES'
cpu cpu lwp
kernel evcnt kernel kthread module once proc
localcount localcount
locks condvar mutex rwlock
memory kmem percpu pool
module_hook module_hook
pserialize pserialize
psref psref
softint callout intr xcall
workqueue workqueue
NAMES

# is_made FILE FROM: whether a file is there, and no older than what it is made from.
is_made() {
    [ -f "$1" ] && [ -z "$(find "$2" -newer "$1")" ]
}

cd ../kupaldiz || exit
# By header: the calls that note a place. Their bodies begin with begin_call, or call one whose body does so by its plain name.
write_places() {
    printf '/* places.h - macros of the names of a header'"'"'s calls, which note where each is made */\n#ifndef KUPALDIZ_WITHOUT_PLACES\n'
    while read -r header calls; do
        printf '#ifdef KUPALDIZ_PLACES_OF_%s\n' "$(echo "$header" | tr '[:lower:]' '[:upper:]')"
        for call in $calls; do
            echo "#define $call(...) (kupaldiz_at(KUPALDIZ_HERE), $call(__VA_ARGS__))"
        done
        echo '#endif'
    done
    echo '#endif'
}

is_made places.h "$here/named.sh" || { write_places >"places.$$" && mv "places.$$" places.h; } <<'PLACED'
cpu kupaldiz_bind kupaldiz_unbind curlwp_bindx kpreempt_enable
kernel panic kpause kthread_exit kthread_join copyin copyout tsleep mtsleep wakeup kupaldiz_kernel_lock kupaldiz_kernel_unlock kupaldiz_set_hz
kernel kupaldiz_run_once kthread_create
localcount localcount_init localcount_fini localcount_drain localcount_acquire localcount_release
locks mutex_destroy mutex_enter mutex_exit mutex_tryenter mutex_spin_enter mutex_spin_exit mutex_obj_free cv_destroy cv_wait cv_wait_sig cv_timedwait
locks mutex_obj_alloc cv_timedwait_sig cv_signal cv_broadcast rw_destroy rw_enter rw_tryenter rw_exit
memory kmem_alloc kmem_zalloc kmem_free kmem_intr_alloc kmem_intr_zalloc kmem_intr_free pool_destroy pool_get pool_put pool_cache_destroy
memory pool_cache_init pool_cache_get pool_cache_put percpu_alloc percpu_create percpu_free percpu_putref
module_hook module_hook_set module_hook_unset module_hook_tryenter module_hook_exit
pserialize pserialize_create pserialize_destroy pserialize_read_enter pserialize_read_exit pserialize_perform
psref psref_class_create psref_class_destroy psref_target_init psref_target_destroy psref_acquire psref_release psref_copy psref_held
softint softint_establish softint_disestablish softint_schedule kupaldiz_splraise splx xc_broadcast xc_barrier callout_destroy callout_halt
mbuf m_get m_gethdr m_free
pcq pcq_create pcq_destroy
systm hashinit hashdone
workqueue workqueue_create workqueue_enqueue workqueue_wait workqueue_destroy
PLACED

# The calls of the map, except those that are named so in C, too.
is_made names.h "$here/netbsd.map" && exit
{
    cat <<'HEAD'
/*
 * names.h - what the linker calls the calls: each has `kupaldiz_` before its name
 *
 * So a program may have a function mutex_enter or delay of its own elsewhere, or a library that does: neither clashes with the layer's. The pragma is one
 * of gcc's and clang's; it takes effect for what is declared after it.
 */
#ifndef KUPALDIZ_NETBSD_NAMES_H
#define KUPALDIZ_NETBSD_NAMES_H

#ifndef __PRAGMA_REDEFINE_EXTNAME
#error "the compiler has no #pragma redefine_extname: gcc and clang have it"
#endif

HEAD
    grep -oh '\bkupaldiz_[a-z0-9_]*' [!n]*.h | sort -u >"names.$$.own"
    sed -n 's/^\t\t\(kupaldiz_[a-z0-9_]*\);$/\1/p' "$here/netbsd.map" | grep -vxF -f "names.$$.own" | sed 's/^kupaldiz_\(.*\)/#pragma redefine_extname \1 &/'
    printf '\n#endif\n'
} >"names.$$" && mv "names.$$" names.h
rm -f "names.$$.own"
