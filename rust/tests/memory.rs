//! What memory of the crate's own is left: none after a refusal or a closing, and little after many
//! drops. What happens where there is none.
#![allow(unknown_lints, unexpected_cfgs)]

mod common;

use common::*;
use kupaldiz::*;
use std::alloc::{GlobalAlloc, Layout, System};
use std::cell::Cell;
use std::ptr;

/// Counts what each thread has allocated and not freed. It has no block for a thread that is longer
/// than this thread may have.
struct Counting;

thread_local! {
    static BYTES: Cell<isize> = const { Cell::new(0) };
    static BLOCKS: Cell<isize> = const { Cell::new(0) };
    static LONGEST: Cell<usize> = const { Cell::new(usize::MAX) };
}

fn count(bytes: isize, blocks: isize) {
    let _ = BYTES.try_with(|all| all.set(all.get() + bytes));
    let _ = BLOCKS.try_with(|all| all.set(all.get() + blocks));
}

// SAFETY: all is done by the system's allocator.
#[deny(unsafe_op_in_unsafe_fn)]
unsafe impl GlobalAlloc for Counting {
    unsafe fn alloc(&self, layout: Layout) -> *mut u8 {
        if layout.size() > LONGEST.try_with(Cell::get).unwrap_or(usize::MAX) {
            return ptr::null_mut();
        }
        count(layout.size() as isize, 1);
        // SAFETY: the caller guarantees it.
        unsafe { System.alloc(layout) }
    }

    unsafe fn dealloc(&self, at: *mut u8, layout: Layout) {
        count(-(layout.size() as isize), -1);
        // SAFETY: the caller guarantees it.
        unsafe { System.dealloc(at, layout) }
    }
}

#[global_allocator]
static ALLOCATOR: Counting = Counting;

/// How many blocks this thread has more after it did this.
fn left(deed: impl FnOnce()) -> isize {
    let before = BLOCKS.with(Cell::get);
    deed();
    BLOCKS.with(Cell::get) - before
}

/// Does it while this thread gets no block that is longer.
fn with_blocks_of(longest: usize, deed: impl FnOnce()) {
    LONGEST.with(|most| most.set(longest));
    deed();
    LONGEST.with(|most| most.set(usize::MAX));
}

/// Neither what was refused, destroyed, retired or dropped, nor what is left at the closing, whose
/// dropped references are released.
#[test]
fn what_is_gone_keeps_no_memory() {
    let (wm, wm0, locals) = (name("wm"), name("wm0"), watched::locals());
    let come_and_go = || {
        let (registry, cpus) = with_driver("driver".to_string());
        let (cpu, (_other, others)) = (&cpus[0], with_driver(String::new()));
        cpu.attach_iface("wm", wm0, "port".to_string()).unwrap();
        let section = cpu.enter().unwrap();
        drop(cpu.attach(wm, "inside".to_string()).unwrap_err());
        section.exit();
        drop(cpu.attach(wm, "taken".to_string()).unwrap_err());
        drop(others[0].attach(wm, "elsewhere".to_string()).unwrap_err());
        drop(cpu.attach_iface("wm", wm0, "taken".to_string()).unwrap_err());
        let retired = cpu.detach((Kind::Iface, &wm0)).unwrap();
        assert_eq!(retired.destroy_on(cpu, Patience::Turns(1)).unwrap().value, "port");
        cpu.attach(wm0, "two".to_string()).unwrap();
        cpu.retire(wm0).unwrap();
        drop((0..200).map(|_| local(&cpus[1], "wm")).collect::<Vec<_>>());
        assert_eq!(registry.dropped(), 200);
        // A reference may outlive all CPUs.
        let last = local(cpu, "wm");
        let clones = [last.clone(), last.clone()];
        drop(cpus);
        drop((last, clones));
    };
    come_and_go();
    assert_eq!((left(|| (0..10).for_each(|_| come_and_go())), watched::locals()), (0, locals));
}

/// So the archive's memory goes, too.
#[test]
#[cfg_attr(not(kupaldiz_watched), ignore)]
fn a_closing_closes_each_cpu_and_the_keeper() {
    let before = watched::closed();
    let (registry, cpus) = with_driver(7);
    drop(cpus);
    drop(registry.any_cpu());
    assert_eq!(watched::closed(), before);
    drop(registry);
    // Two CPUs, the registry's own, and the keeper.
    assert_eq!(watched::closed(), before + 4);
}

/// A reference that is dropped where its basket can't grow stays held for good. Its own memory
/// goes, and what lies in the basket is released as ever.
#[test]
#[cfg_attr(not(kupaldiz_watched), ignore)]
fn a_reference_that_is_dropped_without_memory_stays_held() {
    let (registry, cpus) = with_driver(7);
    let (cpu, locals) = (&cpus[0], watched::locals());
    // There is none for a list of more than 64, and the first is in no list.
    let held: Vec<_> = (0..100).map(|_| local(cpu, "wm")).collect();
    with_blocks_of(64 * 64, || drop(held));
    assert_eq!((registry.dropped(), watched::locals()), (65, locals + 65));
    let retired = cpu.detach("wm").unwrap();
    assert_eq!((registry.dropped(), watched::locals()), (0, locals));
    assert_eq!(
        retired.try_destroy().unwrap_err().refusal,
        DestroyError::StillHeld(Holder::Local(35))
    );
}

/// After 100,000 references are dropped at once, no room stays for them. It is given back in one
/// step.
#[test]
fn a_basket_gives_its_room_back() {
    let (registry, cpus) = opened(Settings::new(1, 1));
    let wm = name("wm");
    cpus[0].attach(wm, 7).unwrap();
    let section = cpus[0].enter().unwrap();
    let found = section.find(wm).unwrap();
    let before = BYTES.with(Cell::get);
    let count = scaled(100_000);
    let many: Vec<_> = (0..count).map(|_| Found::acquire_local(&found).unwrap()).collect();
    drop(many);
    assert_eq!(registry.dropped(), count);
    assert!(BYTES.with(Cell::get) - before >= count as isize * 8);
    LocalRef::release(Found::acquire_local(&found).unwrap(), &cpus[0]);
    // What the thread itself takes meanwhile, as for a wait, is less than one place of each
    // reference.
    assert!(BYTES.with(Cell::get) - before < count as isize);
}
