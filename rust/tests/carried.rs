//! What entries carry: each value is dropped once, not before nobody can hold its entry, and never
//! under a lock. Also where a drop panics, calls the registry, or a handle is forgotten.

mod common;

use common::*;
use kupaldiz::*;
use std::cell::{Cell, RefCell};
use std::mem;
use std::panic::{catch_unwind, AssertUnwindSafe};
use std::rc::Rc;
use std::sync::mpsc::channel;
use std::sync::{Arc, Mutex};
use std::thread;

/// Any of the handles keeps it open; a close waits for the others.
#[test]
fn what_is_left_is_dropped_at_the_closing() {
    let drops = Drops::default();
    let (registry, mut cpus) = with_driver(drops.make(0));
    cpus[0].attach("vga", drops.make(1)).unwrap();
    let (held, retired) = (local(&cpus[0], "wm"), cpus[0].detach("vga").unwrap());
    let registry = registry.close(Patience::Turns(2)).unwrap_err().given;
    assert!(registry == retired.registry() && registry == cpus[1].registry());
    drop((registry, cpus.pop()));
    let registry = cpus[0].registry();
    drop(cpus);
    held.check();
    assert_eq!(drops.dropped(), 0);
    let closes = Waiter::here();
    drop(dropped_here());
    let leaving = thread::spawn(move || {
        closes.waits();
        drop((held, retired));
    });
    registry.close(patience()).unwrap();
    leaving.join().unwrap();
    assert_eq!((drops.dropped(), dropped_here()), (2, vec![0]), "on the closing thread");
}

/// Locks what its caller has locked.
struct Locking(Arc<Mutex<u32>>);

impl Drop for Locking {
    fn drop(&mut self) {
        *self.0.lock().unwrap() += 1;
    }
}

/// An attach and a detach drop nothing, not even where the attach needs a slot.
#[test]
fn a_caller_may_hold_a_lock_that_a_drop_takes() {
    let (to, from) = channel();
    thread::spawn(move || {
        let count = Arc::new(Mutex::new(0));
        let (registry, cpus) = opened(Settings::new(2, 2));
        let attach = |text| cpus[0].attach(name(text), Locking(Arc::clone(&count))).is_ok();
        assert!(attach("d0") && attach("d1"));
        let section = cpus[1].enter().unwrap();
        cpus[0].detach("d0").unwrap().defer();
        section.exit();
        let locked = count.lock().unwrap();
        let token = cpus[0].detach("d1").unwrap();
        assert!(attach("d2") && attach("d3"));
        drop(locked);
        drop(token);
        let dropped = *count.lock().unwrap();
        drop((registry, cpus));
        let all = *count.lock().unwrap();
        to.send((dropped, all))
    });
    assert_eq!(from.recv_timeout(LONG), Ok((2, 4)));
}

/// The library of a plug-in, or an object of it, whose drop runs code of the library.
#[derive(Clone, Copy, Debug, PartialEq)]
enum Role {
    Library,
    Object,
    Other,
}

struct Part {
    role: Role,
    dropped: Rc<RefCell<Vec<Role>>>,
}

impl Drop for Part {
    fn drop(&mut self) {
        self.dropped.borrow_mut().push(self.role);
    }
}

type Plug = (Registry<Part>, Vec<Cpu<Part>>);

/// What is done with a registry that has the library as `gz` and the object as `gz0`, in two or
/// three slots.
type End = fn(Plug, Box<dyn Fn(Role) -> Part>);

/// Both are retired, and an attach has freed their slots if there are two.
fn tokens((_registry, cpus): &Plug, make: &dyn Fn(Role) -> Part) -> (Retired<Part>, Retired<Part>) {
    let object = cpus[0].detach((Kind::Iface, "gz0")).unwrap();
    let library = cpus[0].detach("gz").unwrap();
    let _ = cpus[0].attach("other", make(Role::Other)).map_err(why);
    (object, library)
}

const ENDS: [(&str, End); 8] = [
    ("the closing", |plug, _| drop(plug)),
    ("a closing with a deferred object", |(registry, cpus), _| {
        let held = cpus[0].get_local((Kind::Iface, "gz0")).ok();
        cpus[0].detach((Kind::Iface, "gz0")).unwrap().defer();
        drop(held);
        drop((registry, cpus));
    }),
    ("a drain", |(registry, _cpus), _| {
        let drained = registry.drain(patience()).unwrap();
        assert_eq!(
            drained.freed.iter().map(|freed| freed.value.role).collect::<Vec<_>>(),
            [Role::Object, Role::Library]
        );
    }),
    ("a drain with a deferred object", |(registry, cpus), _| {
        let held = cpus[0].get_local((Kind::Iface, "gz0")).ok();
        cpus[0].detach((Kind::Iface, "gz0")).unwrap().defer();
        drop(held);
        assert_eq!(registry.drain(patience()).unwrap().freed.len(), 2);
    }),
    ("tokens", |plug, make| {
        let (object, library) = tokens(&plug, &make);
        let library = library.try_destroy().map(drop).unwrap_err();
        assert_eq!(library.refusal, DestroyError::StillHeld(Holder::Local(1)));
        drop(object);
        assert_eq!(library.given.try_destroy().unwrap().value.role, Role::Library);
    }),
    ("tokens that are dropped", |plug, make| {
        let (object, library) = tokens(&plug, &make);
        drop(library);
        assert_eq!((plug.0.free_deferred().len(), plug.0.deferred()), (0, 1));
        drop(object.try_destroy().unwrap());
        assert_eq!(plug.0.free_deferred().len(), 1);
    }),
    ("a collect of both", |plug, make| {
        let section = plug.1[1].enter().unwrap();
        let (object, library) = tokens(&plug, &make);
        drop((library, object));
        section.exit();
        assert_eq!(
            plug.0.free_deferred().iter().map(|freed| freed.value.role).collect::<Vec<_>>(),
            [Role::Object, Role::Library]
        );
    }),
    ("an attach that fails with the last handle", |(registry, cpus), make| {
        let driver = local(&cpus[0], "gz");
        let refused = cpus[0].attach_iface("gz", "gz0", make(Role::Object)).unwrap_err();
        drop(cpus[0].detach((Kind::Iface, "gz0")).unwrap());
        drop((registry, cpus));
        drop((refused, driver));
    }),
];

/// So a host may unload the library in the drop of the driver's value.
#[test]
fn a_value_of_a_driver_outlives_those_of_its_interfaces() {
    for (what, slots, end) in
        ENDS.iter().flat_map(|(what, end)| [2, 3].map(|slots| (what, slots, end)))
    {
        let dropped = Rc::new(RefCell::new(Vec::new()));
        let all = Rc::clone(&dropped);
        let make = move |role| Part { role, dropped: Rc::clone(&all) };
        let (registry, cpus) = opened(Settings::new(2, slots));
        cpus[0].attach("gz", make(Role::Library)).unwrap();
        cpus[0].attach_iface("gz", "gz0", make(Role::Object)).unwrap();
        end((registry, cpus), Box::new(make));
        let dropped = dropped.borrow();
        let last = |role| dropped.iter().rposition(|one| *one == role);
        let libraries = dropped.iter().filter(|role| **role == Role::Library).count();
        assert!(
            libraries == 1
                && last(Role::Object).is_some()
                && last(Role::Object) < last(Role::Library),
            "{what}, {slots} slots: {dropped:?}"
        );
    }
}

/// An interface that is never dropped keeps its driver's value for ever.
#[test]
fn a_forgotten_reference_to_an_interface_keeps_the_value_of_its_driver() {
    let drops = Drops::default();
    let (registry, cpus) = with_driver(drops.make(0));
    cpus[0].attach_iface("wm", "wm0", drops.make(1)).unwrap();
    cpus[0].attach("vga", drops.make(2)).unwrap();
    mem::forget(cpus[1].get((Kind::Iface, "wm0")).unwrap());
    drop((registry, cpus));
    assert_eq!((drops.made(), drops.dropped()), (3, 1));
}

/// A section and a reference keep what they hold; so does a handle, of all entries.
#[test]
fn what_is_forgotten_keeps_its_value() {
    let drops = Drops::default();
    let (registry, mut cpus) = with_driver(drops.make(0));
    cpus[0].attach("vga", drops.make(1)).unwrap();
    mem::forget(cpus[1].enter().unwrap());
    let reference = passive(&cpus[1], "wm");
    let kept: *const Tracked = &*reference;
    mem::forget(reference);
    let mut gone = detach(&cpus[0], "wm");
    assert_eq!(gone.holder(), Some(Holder::Grace(1)));
    cpus[1].leave();
    assert_eq!(gone.holder(), Some(Holder::Passive(1)));
    drop((registry, cpus, gone));
    assert_eq!(drops.dropped(), 1);
    // SAFETY: the crate promises that what a forgotten reference holds is never dropped.
    unsafe { (*kept).check() };
    for forgotten in 0..4 {
        let (registry, mut cpus) = with_driver(drops.make(forgotten));
        match forgotten {
            0 => mem::forget(local(&cpus[0], "wm")),
            1 => mem::forget(cpus.remove(1)),
            2 => mem::forget(cpus[0].detach("wm").unwrap()),
            _ => mem::forget(registry.clone()),
        }
        assert_eq!((registry.free_deferred().len(), registry.deferred()), (0, 0));
    }
    assert_eq!(drops.dropped(), 1);
}

/// On any thread.
#[test]
fn a_panic_gives_all_back() {
    let drops = Drops::default();
    let (registry, cpus) = with_driver(drops.make(0));
    let held = |cpu: &Cpu<Tracked>| {
        let (_local, _passive, _guard) =
            (local(cpu, "wm"), passive(cpu, "wm"), cpu.read("wm").unwrap());
        let _section = cpu.enter().unwrap();
        panic!("the body's own");
    };
    assert!(catch_unwind(AssertUnwindSafe(|| held(&cpus[1]))).is_err());
    assert!(
        !cpus[1].is_inside() && !cpus[1].holds(1) && registry.audit(&cpus).unwrap()[0].held == 0
    );
    let mut cpus = cpus;
    let cpu = cpus.remove(1);
    assert!(thread::spawn(move || held(&cpu)).join().is_err());
    let cpu = registry.cpu(1).unwrap();
    assert!(!cpu.is_inside() && !cpu.holds(1));
    drop(detach(&cpu, "wm").freed());
    assert_eq!(drops.dropped(), 1);
}

/// Of any size and alignment, of one thread, and borrowed ones.
#[test]
fn any_value_is_carried() {
    #[repr(align(256))]
    struct Wide(u8);
    fn carry<T>(value: T) -> T {
        let (_registry, cpus) = with_driver(value);
        detach(&cpus[0], "wm").freed().value
    }
    let (_registry, cpus) = with_driver((Wide(9), [7u8; 4096]));
    let held = passive(&cpus[0], "wm");
    assert_eq!((held.0 .0, held.1[4095]), (9, 7));
    assert_eq!((carry(Wide(9)).0, carry([7u8; 4096]), carry(())), (9, [7; 4096], ()));
    let (counted, text) = (Rc::new(Cell::new(0)), String::from("borrowed"));
    let (registry, cpus) = with_driver((Rc::clone(&counted), text.as_str()));
    passive(&cpus[0], "wm").0.set(3);
    assert_eq!((counted.get(), passive(&cpus[0], "wm").1), (3, "borrowed"));
    drop((registry, cpus));
    assert_eq!(Rc::strong_count(&counted), 1);
    // A token is moved at each turn, and the interlock waits for what is stored before it.
    assert_eq!(mem::size_of::<Retired<[u64; 9]>>(), 2 * mem::size_of::<usize>());
}
