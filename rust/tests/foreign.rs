//! Code of the caller's that a call runs: wakers, drops of a `T`, closures. Whatever it does, the
//! call does what it says, and nothing is lost. src/foreign.rs lists the places.

mod common;

use common::*;
use kupaldiz::*;
use std::cell::RefCell;
use std::fmt::{self, Write};
use std::mem;
use std::panic::{catch_unwind, panic_any, AssertUnwindSafe};
use std::rc::Rc;
use std::sync::atomic::{AtomicUsize, Ordering};
use std::sync::mpsc::{channel, sync_channel, SyncSender};
use std::sync::{Arc, Mutex};
use std::task::{RawWaker, RawWakerVTable, Wake, Waker};
use std::thread;

/// What the code does.
#[derive(Clone, Copy, Debug)]
enum Deed {
    Panics,
    /// It makes every call.
    Calls,
    /// It waits for another thread that makes every call, so no lock of the crate is held.
    CallsElsewhere,
}

const DEEDS: [Deed; 3] = [Deed::Panics, Deed::Calls, Deed::CallsElsewhere];

/// What a panic carries that panics as it is dropped, too.
struct PanicsAgain;

impl Drop for PanicsAgain {
    fn drop(&mut self) {
        panic_any(());
    }
}

/// Whether it panics.
fn panics(deed: impl FnOnce()) -> bool {
    let ended = catch_unwind(AssertUnwindSafe(deed));
    let panicked = ended.is_err();
    drop(catch_unwind(AssertUnwindSafe(|| drop(ended))));
    panicked
}

/// Does it, on a spare CPU.
fn act<T: Send + Sync + 'static>(
    deed: Deed,
    registry: &Registry<T>,
    value: impl Fn() -> T + Send + 'static,
) {
    let (registry, cpu) = (registry.clone(), registry.any_cpu().expect("a spare CPU"));
    let calls = move || every_call(&registry, &cpu, value);
    match deed {
        Deed::Panics => panic_any(PanicsAgain),
        Deed::Calls => calls(),
        Deed::CallsElsewhere => {
            let (to, from) = channel();
            thread::spawn(move || {
                calls();
                to.send(())
            });
            from.recv_timeout(LONG).expect("another thread's calls wait");
        }
    }
}

/// A registry of which the tests have three CPUs, and two are spare; and how often its code acted.
struct Scene {
    registry: Registry<Tracked>,
    drops: Drops,
    acted: Arc<AtomicUsize>,
}

impl Scene {
    /// With the drivers `wm` and `vga`.
    fn open() -> (Scene, Vec<Cpu<Tracked>>) {
        let (registry, mut cpus) = opened(Settings::new(5, 16));
        let drops = Drops::default();
        for text in ["wm", "vga"] {
            cpus[0].attach(name(text), drops.make(1)).unwrap();
        }
        cpus.truncate(3);
        (Scene { registry, drops, acted: Arc::default() }, cpus)
    }

    /// Code that does this.
    fn code(&self, deed: Deed) -> impl Fn() + Send + Sync + 'static {
        let (registry, drops, acted) =
            (self.registry.clone(), self.drops.clone(), Arc::clone(&self.acted));
        move || {
            acted.fetch_add(1, Ordering::SeqCst);
            let drops = drops.clone();
            act(deed, &registry, move || drops.make(2));
        }
    }

    /// Detaches both drivers, and awaits `wm` by such code and `vga` by a task.
    fn await_both(&self, deed: Deed, cpu: &Cpu<Tracked>) -> Awaited {
        let [mut wm, mut vga] = ["wm", "vga"].map(|text| cpu.detach(name(text)).unwrap());
        let task = Task::here();
        assert!(poll(&mut wm, &waker(self.code(deed))).is_pending());
        let is_held = task.poll(&mut vga).is_pending();
        Awaited { wm, vga: Some(vga).filter(|_| is_held), task }
    }

    /// The code acted so often, and nothing is left: each value was dropped once.
    fn ends(self, cpus: Vec<Cpu<Tracked>>, acted: usize, what: &str) {
        assert_eq!(self.acted.load(Ordering::SeqCst), acted, "{what}");
        drop(cpus);
        self.registry.close(Patience::Turns(1)).expect("no handle is left");
        assert_eq!(self.drops.made(), self.drops.dropped(), "{what}");
    }
}

struct Awaited {
    wm: Retired<Tracked>,
    vga: Option<Retired<Tracked>>,
    task: Arc<Task>,
}

impl Awaited {
    /// All was let go, and whoever awaited it was woken.
    fn are_free(self, what: &str) {
        self.wm.try_destroy().unwrap_or_else(|held| panic!("{what}: {held}")).value.check();
        if let Some(vga) = self.vga {
            assert_eq!(self.task.woken(), 1, "{what}");
            vga.try_destroy().unwrap_or_else(|held| panic!("{what}: {held}")).value.check();
        }
    }
}

/// Holds `wm` by a CPU, or by its section all that is detached meanwhile. What it returns lets go.
type Hold = for<'a> fn(&'a mut Option<Cpu<Tracked>>) -> Box<dyn FnOnce() + 'a>;

const HOLDS: [(&str, Hold); 9] = [
    ("a section", |cpu| {
        let section = cpu.as_ref().unwrap().enter().unwrap();
        Box::new(move || section.exit())
    }),
    ("a guard", |cpu| {
        let guard = cpu.as_ref().unwrap().read("wm").unwrap();
        Box::new(move || ReadGuard::exit(guard))
    }),
    ("a passive reference", |cpu| {
        let held = passive(cpu.as_ref().unwrap(), "wm");
        Box::new(move || drop(held))
    }),
    ("one that has its CPU", |cpu| {
        let held = Rc::new(cpu.take().unwrap()).get_rc("wm").unwrap();
        Box::new(move || drop(held))
    }),
    ("a local reference that is dropped", |cpu| {
        let held = local(cpu.as_ref().unwrap(), "wm");
        Box::new(move || drop(held))
    }),
    ("one that is released", |cpu| {
        let held = local(cpu.as_ref().unwrap(), "wm");
        Box::new(move || LocalRef::release(held, cpu.as_ref().unwrap()))
    }),
    ("a CPU that leaves", |cpu| {
        mem::forget(cpu.as_ref().unwrap().enter().unwrap());
        Box::new(move || cpu.as_mut().unwrap().leave())
    }),
    ("a CPU that is dropped", |cpu| {
        mem::forget(cpu.as_ref().unwrap().enter().unwrap());
        Box::new(move || drop(cpu.take()))
    }),
    ("a loan", |cpu| {
        mem::forget(cpu.as_ref().unwrap().enter().unwrap());
        Box::new(move || {
            let pool = CpuPool::new(cpu.take()).unwrap();
            drop(pool.lend());
            assert_eq!(pool.try_lend().map(|cpu| cpu.depth()), Some(0));
        })
    }),
];

#[test]
fn a_waker_may_do_anything() {
    for (deed, (what, hold)) in DEEDS.iter().flat_map(|deed| HOLDS.map(|hold| (*deed, hold))) {
        let (scene, mut cpus) = Scene::open();
        let mut holder = Some(cpus.remove(1));
        let let_go = hold(&mut holder);
        let both = scene.await_both(deed, &cpus[0]);
        let_go();
        both.are_free(what);
        cpus.extend(holder);
        scene.ends(cpus, 1, what);
    }
}

/// A way to have the value of a retired interface, or to let it go: whether it is freed.
type Frees = fn(&Cpu<Tracked>, Retired<Tracked>) -> bool;

const FREES: [(&str, Frees); 5] = [
    ("advance", |_, retired| retired.try_destroy().is_ok()),
    ("wait", |_, retired| retired.destroy(Patience::Forever).is_ok()),
    ("destroy", |cpu, retired| retired.destroy_on(cpu, Patience::Forever).is_ok()),
    ("poll", |_, mut retired| {
        let task = Task::here();
        task.poll(&mut retired).is_ready() && task.woken() == 0
    }),
    ("drop", |_, retired| {
        drop(retired);
        true
    }),
];

/// An interface that is freed lets its driver go: the value is whole, and is had or dropped once.
#[test]
fn a_waker_may_do_anything_as_an_interface_is_freed() {
    for (deed, (what, frees)) in DEEDS.iter().flat_map(|deed| FREES.map(|frees| (*deed, frees))) {
        let (scene, cpus) = Scene::open();
        let (registry, cpu) = (&scene.registry, &cpus[0]);
        cpu.attach_iface("wm", "wm0", scene.drops.make(3)).unwrap();
        let retired = cpu.detach((Kind::Iface, "wm0")).unwrap();
        let both = scene.await_both(deed, cpu);
        assert!(frees(cpu, retired), "{what}");
        assert_eq!(registry.deferred(), 0, "{what}");
        both.are_free(what);
        scene.ends(cpus, 1, what);
    }
}

thread_local! {
    static OWN: RefCell<Option<Rc<Cpu<u32>>>> = const { RefCell::new(None) };
}

/// The very CPU whose call woke it.
#[test]
fn a_waker_may_use_the_cpu_that_woke_it() {
    let (registry, mut cpus) = with_driver(7);
    let cpu = Rc::new(cpus.remove(0));
    OWN.with(|own| *own.borrow_mut() = Some(Rc::clone(&cpu)));
    let (held, section) = (cpu.get_rc("wm").unwrap(), cpu.enter().unwrap());
    let mut retired = cpus[0].detach("wm").unwrap();
    let (acted, also) = (Arc::new(AtomicUsize::new(0)), registry.clone());
    let counted = Arc::clone(&acted);
    let calls = waker(move || {
        counted.fetch_add(1, Ordering::SeqCst);
        let own = OWN.with(|own| own.borrow().clone()).unwrap();
        every_call(&also, &own, || 8);
    });
    assert!(poll(&mut retired, &calls).is_pending());
    section.exit();
    assert!(poll(&mut retired, &calls).is_pending());
    PassiveRc::release(held);
    assert_eq!(
        (acted.load(Ordering::SeqCst), poll(&mut retired, &calls).map(|freed| freed.value)),
        (2, std::task::Poll::Ready(7))
    );
    OWN.with(|own| own.borrow_mut().take());
}

/// As a CPU comes back to a pool, threads and tasks wait for it.
#[test]
fn a_waker_of_a_pool_may_do_anything() {
    for deed in DEEDS {
        let (scene, mut cpus) = Scene::open();
        let pool = Arc::new(CpuPool::new([cpus.remove(1)]).unwrap());
        let (lent, (to, from), task) = (pool.lend(), channel(), Task::here());
        let waits = thread::spawn({
            let pool = Arc::clone(&pool);
            move || to.send(pool.lend().id())
        });
        let (mut one, mut two) = (Box::pin(pool.lend_async()), Box::pin(pool.lend_async()));
        assert!(
            poll(&mut one, &waker(scene.code(deed))).is_pending()
                && poll(&mut two, &Arc::clone(&task).into()).is_pending()
        );
        drop(lent);
        assert_eq!(from.recv_timeout(LONG), Ok(1), "{deed:?}");
        waits.join().unwrap().unwrap();
        assert!(task.woken() > 0 && pool.try_lend().is_some());
        drop((one, two));
        drop(pool);
        scene.ends(cpus, 1, "a pool");
    }
}

/// A waker whose clone panics, and one whose drop does.
fn fragile(panics_as: &'static str) -> Waker {
    unsafe fn clone(panics_as: *const ()) -> RawWaker {
        // SAFETY: it is such a text.
        if unsafe { *(panics_as as *const &str) } == "cloned" {
            panic_any(PanicsAgain);
        }
        RawWaker::new(panics_as, &TABLE)
    }
    unsafe fn dropped(panics_as: *const ()) {
        // SAFETY: it is such a text.
        if unsafe { *(panics_as as *const &str) } == "dropped" {
            panic_any(PanicsAgain);
        }
    }
    static TABLE: RawWakerVTable = RawWakerVTable::new(clone, dropped, |_| (), dropped);
    let text: &'static &'static str = if panics_as == "cloned" { &"cloned" } else { &"dropped" };
    // SAFETY: the table's functions take such a text, which is there for ever.
    unsafe { Waker::from_raw(RawWaker::new(text as *const &str as *const (), &TABLE)) }
}

/// A poll that can't note its task panics, and has done nothing. What a task's waker does as it is
/// dropped is nobody's concern.
#[test]
fn a_waker_may_panic_as_it_is_cloned_or_dropped() {
    let (scene, cpus) = Scene::open();
    let held = [local(&cpus[0], "wm"), local(&cpus[0], "vga")];
    let (cloned, dropped, task) =
        (fragile("cloned"), mem::ManuallyDrop::new(fragile("dropped")), Task::here());
    let mut wm = cpus[0].detach("wm").unwrap();
    assert!(panics(|| drop(poll(&mut wm, &cloned))));
    assert!(poll(&mut wm, &dropped).is_pending() && poll(&mut wm, &dropped).is_pending());
    assert!(task.poll(&mut wm).is_pending());
    let mut vga = cpus[0].detach("vga").unwrap();
    assert!(poll(&mut vga, &dropped).is_pending());
    drop(vga);
    drop(held);
    assert_eq!(task.woken(), 1);
    assert!(wm.try_destroy().is_ok() && scene.registry.free_deferred().len() == 1);
    scene.ends(cpus, 0, "wakers");
}

/// Runs code as it becomes what a call is given.
struct Given<F>(F);

impl<F: Fn()> From<Given<F>> for Key {
    fn from(Given(code): Given<F>) -> Key {
        code();
        Key::from("wm")
    }
}

impl<F: Fn()> From<Given<F>> for Patience {
    fn from(Given(code): Given<F>) -> Patience {
        code();
        Patience::Turns(1)
    }
}

/// Runs code as it is looked at as a CPU.
struct Looked<'cpu, F>(&'cpu Cpu<Tracked>, F);

impl<F: Fn()> AsRef<Cpu<Tracked>> for Looked<'_, F> {
    fn as_ref(&self) -> &Cpu<Tracked> {
        (self.1)();
        self.0
    }
}

/// Before the call does anything: so it has no lock, and no CPU. A panic is the call's, which drops
/// what it was given, and has changed nothing.
#[test]
fn what_a_call_is_given_may_do_anything() {
    const CALLS: usize = 33;
    for deed in DEEDS {
        let (scene, mut cpus) = Scene::open();
        let (registry, cpu, code) = (&scene.registry, Rc::new(cpus.remove(1)), scene.code(deed));
        let (given, value) = (|| Given(&code), || scene.drops.make(3));
        let token = || cpu.attach("late", value()).map(|_| cpu.detach("late").unwrap());
        let calls: [&dyn Fn(); CALLS] = [
            &|| drop(ReadGuard::map(cpu.read("vga").unwrap(), |value| (value, code()).0)),
            &|| drop(PassiveRef::map(passive(&cpu, "vga"), |value| (value, code()).0)),
            &|| drop(PassiveRc::map(cpu.get_rc("vga").unwrap(), |value| (value, code()).0)),
            &|| drop(LocalRef::map(local(&cpu, "vga"), |value| (value, code()).0)),
            &|| drop(registry.audit([Looked(&cpu, &code)])),
            &|| drop(registry.audit(cpus[..1].iter().inspect(|_| code()))),
            &|| drop(CpuPool::new(registry.cpu(3).into_iter().inspect(|_| code()))),
            &|| _ = registry.get(given()),
            &|| _ = registry.look_up(given()),
            &|| _ = registry.attach(given(), value()),
            &|| _ = registry.attach_iface(given(), "wm0", value()),
            &|| _ = registry.attach_iface("wm", given(), value()),
            &|| _ = registry.replace(given(), value()),
            &|| _ = registry.replace_iface(given(), "wm", value()),
            &|| _ = registry.detach(given()),
            &|| _ = registry.retire(given()),
            &|| _ = cpu.get(given()),
            &|| _ = cpu.get_local(given()),
            &|| _ = cpu.read(given()),
            &|| _ = cpu.look_up(given()),
            &|| _ = cpu.enter().map(|section| section.find(given()).is_some()),
            &|| _ = cpu.attach(given(), value()),
            &|| _ = cpu.attach_iface("wm", given(), value()),
            &|| _ = cpu.replace(given(), value()),
            &|| _ = cpu.replace_iface("wm", given(), value()),
            &|| _ = cpu.detach((Kind::Iface, given())),
            &|| _ = cpu.detach(given()),
            &|| _ = cpu.retire(given()),
            &|| _ = token().unwrap().destroy(given()),
            &|| _ = token().unwrap().destroy_on(&cpu, given()),
            &|| _ = cpu.synchronize(given()),
            &|| _ = registry.clone().close(given()),
            &|| _ = registry.drain(given()),
        ];
        assert_eq!(calls.map(panics), [matches!(deed, Deed::Panics); CALLS], "{deed:?}");
        assert!(!cpu.is_inside() && !cpu.holds(1) && !cpu.holds(2));
        assert!((3..5).all(|id| registry.cpu(id).is_some()));
        drop((code, cpu));
        scene.ends(cpus, CALLS, "what is given");
    }
}

/// Runs code as it reads a text.
struct Reader<F>(F);

impl<F: Fn()> Write for Reader<F> {
    fn write_str(&mut self, _: &str) -> fmt::Result {
        (self.0)();
        Ok(())
    }
}

#[test]
fn a_reader_of_a_text_may_do_anything() {
    let (to, from) = channel();
    thread::spawn(move || {
        let (scene, mut cpus) = Scene::open();
        let (pool, held) = (CpuPool::new([cpus.remove(1)]).unwrap(), local(&cpus[0], "wm"));
        let refused = cpus[0].detach("wm").unwrap().try_destroy().unwrap_err();
        let section = cpus[0].enter().unwrap();
        let (found, passive) = (section.find("vga").unwrap(), passive(&cpus[0], "vga"));
        let shown: [&dyn fmt::Debug; 9] = [
            &scene.registry,
            &pool,
            &cpus,
            &held,
            &refused,
            &refused.given,
            &section.entries(),
            &found,
            &passive,
        ];
        let calls = || {
            assert!(pool.try_lend().is_some() && held.clone().label == 1);
            assert_eq!((scene.registry.len(), scene.registry.get("vga").is_ok()), (1, true));
        };
        shown.iter().for_each(|one| write!(Reader(calls), "{one:?}").unwrap());
        write!(Reader(calls), "{refused}").unwrap();
        to.send(())
    });
    assert_eq!(from.recv_timeout(LONG), Ok(()));
}

/// What an `Acting` does as it is dropped, once.
type Desk = Arc<Mutex<Option<Box<dyn FnOnce() + Send>>>>;

/// Does what lies on its desk as it is dropped.
struct Acting {
    _tracked: Tracked,
    desk: Desk,
}

impl Drop for Acting {
    fn drop(&mut self) {
        let code = self.desk.lock().unwrap().take();
        if let Some(code) = code {
            code();
        }
    }
}

/// A registry with the drivers `d0` to `d2`.
fn acting(drops: &Drops) -> (Registry<Acting>, Vec<Cpu<Acting>>, Vec<Desk>) {
    let (registry, mut cpus) = opened(Settings::new(3, 8));
    let desks: Vec<Desk> = (0..3).map(|_| Desk::default()).collect();
    for (place, desk) in desks.iter().enumerate() {
        let value = Acting { _tracked: drops.make(5), desk: Arc::clone(desk) };
        cpus[0].attach(name(&format!("d{place}")), value).unwrap();
    }
    cpus.truncate(2);
    (registry, cpus, desks)
}

/// Those that the drop of one token drops: its own, and what was deferred. Its panic is the call's,
/// once all are dropped.
#[test]
fn a_drop_may_do_anything() {
    for (deed, acts) in DEEDS.iter().flat_map(|deed| (0..3).map(move |acts| (*deed, acts))) {
        let drops = Drops::default();
        let (registry, cpus, desks) = acting(&drops);
        let section = cpus[1].enter().unwrap();
        let mut tokens: Vec<_> =
            (0..3).map(|place| cpus[0].detach(name(&format!("d{place}"))).unwrap()).collect();
        let last = tokens.remove(1);
        drop(tokens);
        let (also, more) = (registry.clone(), drops.clone());
        let value = move || Acting { _tracked: more.make(6), desk: Desk::default() };
        *desks[acts].lock().unwrap() = Some(Box::new(move || act(deed, &also, value)));
        section.exit();
        assert_eq!(panics(|| drop(last)), matches!(deed, Deed::Panics), "{deed:?}");
        assert!(
            drops.made() == drops.dropped()
                && registry.deferred() == 0
                && registry.cpu(2).is_some()
        );
        drop(cpus);
        registry.close(Patience::Turns(1)).expect("no handle is left");
    }
}

/// The first panic goes on, once all are dropped.
#[test]
fn each_drop_may_panic() {
    let drops = Drops::default();
    let (registry, cpus, desks) = acting(&drops);
    let section = cpus[1].enter().unwrap();
    for (place, desk) in desks.iter().enumerate() {
        cpus[0].detach(name(&format!("d{place}"))).unwrap().defer();
        let panics = move || if place == 2 { panic_any(place) } else { panic_any(PanicsAgain) };
        *desk.lock().unwrap() = Some(Box::new(panics));
    }
    section.exit();
    let value = Acting { _tracked: drops.make(6), desk: Desk::default() };
    cpus[0].attach("last", value).unwrap();
    let last = cpus[0].detach("last").unwrap();
    let ended = catch_unwind(AssertUnwindSafe(|| drop(last)));
    assert_eq!(ended.unwrap_err().downcast_ref(), Some(&2_usize));
    assert_eq!((drops.made(), registry.deferred()), (drops.dropped(), 0));
}

/// The drop of an interface may be code of the library that its driver carries: as long as it
/// lasts, the driver's value is neither returned nor dropped. It may be dropped by its own token, or
/// by another one after it was deferred, and may panic. If the driver is deferred meanwhile, it goes
/// then.
#[test]
fn a_driver_waits_for_the_drop_of_its_interface() {
    for (is_deferred, is_panicking) in [(false, false), (true, false), (false, true)] {
        let (drops, desk) = (Drops::default(), Desk::default());
        let (registry, cpus, _) = acting(&drops);
        let object = Acting { _tracked: drops.make(6), desk: Arc::clone(&desk) };
        cpus[0].attach_iface("d0", "port", object).unwrap();
        let ((begin, begun), (end, ended)) = (channel(), channel());
        *desk.lock().unwrap() = Some(Box::new(move || {
            begin.send(()).unwrap();
            let _ = ended.recv();
            assert!(!is_panicking, "a drop's own");
        }));
        let held = cpus[1].get_local((Kind::Iface, "port")).ok();
        let mut token = cpus[0].detach((Kind::Iface, "port")).unwrap();
        if is_deferred {
            token.defer();
            token = cpus[0].detach("d1").unwrap();
        }
        drop(held);
        let (mut driver, task) = (cpus[0].detach("d0").unwrap(), Task::here());
        let dropping = thread::spawn(move || panics(|| drop(token)));
        begun.recv_timeout(LONG).unwrap();
        assert!(task.poll(&mut driver).is_pending());
        let refused = driver.try_destroy().map(drop).unwrap_err();
        assert_eq!(refused.refusal, DestroyError::StillHeld(Holder::Local(1)));
        let driver = Some(refused.given).filter(|_| !is_deferred);
        assert_eq!(registry.deferred(), usize::from(is_deferred));
        end.send(()).unwrap();
        assert_eq!(dropping.join().unwrap(), is_panicking);
        assert_eq!((registry.deferred(), task.woken()), (0, usize::from(!is_deferred)));
        assert!(driver.map_or(true, |driver| driver.try_destroy().is_ok()));
        drop(cpus);
        registry.close(Patience::Turns(1)).unwrap();
        assert_eq!(drops.made(), drops.dropped());
    }
}

/// The last handle, of each kind, a close and a destroy; one of the values, or all.
#[test]
fn a_drop_may_panic_as_the_registry_closes() {
    for (acts, last) in (0..4).flat_map(|acts| (0..6).map(move |last| (acts, last))) {
        let drops = Drops::default();
        let (registry, mut cpus, desks) = acting(&drops);
        let mut held = cpus[0].get_local("d0").ok();
        let mut token = cpus[0].detach("d1").ok();
        let mut registry = Some(registry);
        for (_, desk) in desks.iter().enumerate().filter(|(place, _)| acts == 3 || acts == *place) {
            *desk.lock().unwrap() = Some(Box::new(move || panic!("a drop's own")));
        }
        let mut go = |handle| match handle {
            0 => drop(held.take()),
            1 => drop(token.take()),
            2 => cpus.clear(),
            3 => drop(registry.take()),
            4 => drop(registry.take().map(|registry| registry.close(Patience::Turns(1)))),
            _ => drop(token.take().map(|token| token.destroy(Patience::Turns(1)))),
        };
        let others = (0..4).filter(|handle| *handle != [0, 1, 2, 3, 3, 1][last]);
        let panicked = others.chain([last]).filter(|handle| panics(|| go(*handle))).count();
        // As a token goes before the others, and at the closing.
        assert!((1..=2).contains(&panicked));
        assert_eq!((drops.made(), drops.dropped()), (3, 3));
    }
}

/// As a runtime that is gone: its queue takes no task, and its waker says so by a panic.
struct Spawned {
    future: Mutex<Option<std::pin::Pin<Box<Retired<Tracked>>>>>,
    queue: SyncSender<Arc<Spawned>>,
}

impl Wake for Spawned {
    fn wake(self: Arc<Self>) {
        let task = Arc::clone(&self);
        self.queue.try_send(task).map_err(|_| "no queue").expect("a task is queued");
    }
}

/// The task is dropped as it is woken, and what it awaited is deferred.
#[test]
fn a_runtime_may_be_gone_as_a_task_is_woken() {
    let (scene, cpus) = Scene::open();
    let held = local(&cpus[1], "wm");
    let future = Mutex::new(Some(Box::pin(cpus[0].detach("wm").unwrap())));
    let (queue, queued) = sync_channel(4);
    let task = Arc::new(Spawned { future, queue });
    assert!(
        poll(task.future.lock().unwrap().as_mut().unwrap(), &Arc::clone(&task).into()).is_pending()
    );
    drop((task, queued));
    LocalRef::release(held, &cpus[1]);
    assert_eq!(scene.registry.deferred(), 0);
    scene.ends(cpus, 0, "a runtime");
}

/// Only the last of them, and none once the future is gone.
#[test]
fn a_future_keeps_one_waker() {
    let (scene, cpus) = Scene::open();
    let held = local(&cpus[0], "wm");
    let mut wm = cpus[0].detach("wm").unwrap();
    let pool = CpuPool::new(cpus).unwrap();
    let loans: Vec<_> = (0..3).map(|_| pool.lend()).collect();
    let (mark, mut lend) = (Arc::new(()), Box::pin(pool.lend_async()));
    for _ in 0..100 {
        let marks = [(); 2].map(|()| Arc::clone(&mark));
        let [one, two] = marks.map(|mark| waker(move || assert!(Arc::strong_count(&mark) > 0)));
        assert!(poll(&mut wm, &one).is_pending() && poll(&mut lend, &two).is_pending());
    }
    assert_eq!(Arc::strong_count(&mark), 3);
    drop((wm, lend));
    assert_eq!(Arc::strong_count(&mark), 1);
    drop((loans, held));
    drop(scene.registry.free_deferred());
    scene.ends(pool.into_cpus(), 0, "futures");
}

/// A lookup that has nothing to do with it wakes nobody, nor does an exit that leaves a section
/// open.
#[test]
fn only_what_holds_an_entry_wakes_its_task() {
    let (scene, cpus) = Scene::open();
    let outer = cpus[1].enter().unwrap();
    let both = scene.await_both(Deed::Panics, &cpus[0]);
    for cpu in &cpus {
        assert!(cpu.look_up((Kind::Iface, "none")).is_err() && cpu.read("none").is_err());
        drop(cpu.enter().unwrap());
    }
    assert_eq!((scene.acted.load(Ordering::SeqCst), both.task.woken()), (0, 0));
    outer.exit();
    both.are_free("a section");
    scene.ends(cpus, 1, "a section");
}

/// Nor does the end of a section on the CPU whose reference holds it.
#[test]
fn a_loan_that_goes_back_wakes_no_task_of_what_was_forgotten_on_it() {
    let (_scene, mut cpus) = Scene::open();
    let (pool, task) = (CpuPool::new([cpus.remove(1)]).unwrap(), Task::here());
    mem::forget(pool.lend().get("wm").unwrap());
    let mut wm = cpus[0].detach("wm").unwrap();
    assert!(task.poll(&mut wm).is_pending());
    mem::forget(pool.lend().enter().unwrap());
    assert_eq!((task.woken(), pool.lend().depth()), (0, 0));
}

/// It gives no CPU back.
#[test]
fn a_close_that_waits_wakes_nobody() {
    let (registry, cpus) = with_driver(7);
    let (_held, task) = (local(&cpus[1], "wm"), Task::here());
    let mut wm = cpus[0].detach("wm").unwrap();
    assert!(task.poll(&mut wm).is_pending() && registry.close(Patience::Turns(9)).is_err());
    assert_eq!(task.woken(), 0);
}

/// A task is woken by another thread while that has a lock of the program's: an attach wakes nobody
/// whose entry isn't let go by that.
#[test]
fn a_change_wakes_no_task_of_another_entry() {
    let (to, from) = channel();
    thread::spawn(move || {
        let (lock, (scene, cpus)) = (Arc::new(Mutex::new(0)), Scene::open());
        let held = local(&cpus[1], "wm");
        let also = Arc::clone(&lock);
        let mut wm = cpus[0].detach("wm").unwrap();
        assert!(poll(&mut wm, &waker(move || *also.lock().unwrap() += 1)).is_pending());
        drop(local(&cpus[1], "vga"));
        let locked = lock.lock().unwrap();
        cpus[0].attach("pci", scene.drops.make(4)).unwrap();
        drop(cpus[0].detach("pci").unwrap());
        drop(locked);
        drop(held);
        let woken = *lock.lock().unwrap();
        to.send(woken)
    });
    assert_eq!(from.recv_timeout(LONG), Ok(1));
}
