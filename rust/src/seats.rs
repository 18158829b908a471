//! The CPUs that the crate chooses among, for the calls of a `Registry`, which name none.
//!
//! A CPU lies on the seat with its number, under a lock that a call on it holds. A thread looks
//! first where it found one last, so threads that are no more than CPUs take each its own, and
//! write no word of each other's.

use crate::cpu::Cpu;
use crate::lock::{locked, locked_mut, try_locked, Mutex, MutexGuard};
use crate::shared::Shared;
use std::cell::Cell;
use std::sync::atomic::{AtomicUsize, Ordering};
use std::sync::Arc;

thread_local! {
    /// Where this thread begins to look.
    static BEGIN: Cell<usize> = {
        static THREADS: AtomicUsize = AtomicUsize::new(0);
        Cell::new(THREADS.fetch_add(1, Ordering::Relaxed))
    };
}

/// The CPU with one number, if it is here. On cache lines of its own.
#[repr(align(128))]
struct Seat<T>(Mutex<Option<Cpu<T>>>);

/// A seat with a CPU, which no other call has meanwhile.
type Seated<'a, T> = MutexGuard<'a, Option<Cpu<T>>>;

/// The seats of a registry, which its `Registry` handles own together. A CPU has a share of the
/// registry, so the registry itself doesn't own them.
pub struct Seats<T> {
    seats: Vec<Seat<T>>,
    pub shared: Arc<Shared<T>>,
}

impl<T> Seats<T> {
    pub fn new(shared: Arc<Shared<T>>) -> Seats<T> {
        let seat = |_| Seat(Mutex::new(None));
        Seats { seats: (0..shared.settings.all_cpus()).map(seat).collect(), shared }
    }

    /// The CPU with this number, if nobody has it, for the caller to keep. If a call has it, this
    /// waits for its end.
    pub fn unseat(&self, id: u8) -> Option<Cpu<T>> {
        let own = usize::from(self.shared.settings.cpus);
        let mut seat = locked(&self.seats[..own].get(usize::from(id))?.0);
        let cpu = seat.take().or_else(|| Cpu::spare(&self.shared, id))?;
        drop(cpu.owed.take());
        Some(cpu)
    }

    /// Does this on a CPU that no call has, and waits for one if each is in a call. The tasks that
    /// this lets go are woken once the CPU is back: their code may make such a call, too. Nothing,
    /// if the program has all CPUs, and the registry none of its own.
    #[inline]
    pub fn with<R>(&self, deed: impl FnOnce(&Cpu<T>) -> R) -> Option<R> {
        let begin = BEGIN.try_with(Cell::get).unwrap_or(0) % self.seats.len();
        let lying = try_locked(&self.seats[begin].0).filter(|seat| seat.is_some());
        let seated = lying.or_else(|| self.choose(begin))?;
        let cpu = seated.as_ref()?;
        let done = deed(cpu);
        let slots = cpu.owed.replace(Some(Vec::new())).unwrap_or_default();
        let meant = self.shared.tasks.meant(|number, until| {
            cpu.lets_go(number, *until) || until.is_local(|slot| slots.contains(&slot))
        });
        drop(seated);
        meant.wake();
        Some(done)
    }

    /// The CPU that is the registry's own, if it has one.
    pub fn own(&self) -> Option<Seated<'_, T>> {
        let place = usize::from(self.shared.settings.cpus);
        self.fill(place, locked(&self.seats.get(place)?.0))
    }

    #[cold]
    fn choose(&self, begin: usize) -> Option<Seated<'_, T>> {
        loop {
            let mut in_a_call = None;
            for place in (begin..self.seats.len()).chain(0..begin) {
                match try_locked(&self.seats[place].0) {
                    None => in_a_call = Some(&self.seats[place]),
                    Some(seat) => {
                        if let Some(seated) = self.fill(place, seat) {
                            let _ = BEGIN.try_with(|begin| begin.set(place));
                            return Some(seated);
                        }
                    }
                }
            }
            drop(locked(&in_a_call?.0));
        }
    }

    /// The CPU that lies here, or that nobody has.
    fn fill<'a>(&self, place: usize, mut seat: Seated<'a, T>) -> Option<Seated<'a, T>> {
        if seat.is_none() {
            *seat = Cpu::spare(&self.shared, place as u8);
            drop(seat.as_ref()?.owed.replace(Some(Vec::new())));
        }
        Some(seat)
    }

    /// The registry, once the CPUs that lie here are given back.
    pub fn into_shared(self) -> Arc<Shared<T>> {
        Arc::clone(&self.shared)
    }
}

impl<T> Drop for Seats<T> {
    /// Gives all CPUs back. Then the registry may have other seats; and at last, if there was any,
    /// all tasks are woken.
    fn drop(&mut self) {
        let cpus = self.seats.iter_mut().filter_map(|seat| locked_mut(&mut seat.0).take());
        let given_back = cpus.map(drop).count();
        *locked(&self.shared.seats) = None;
        if given_back > 0 {
            self.shared.tasks.wake(|_, _| true);
        }
    }
}

#[cfg(test)]
mod tests {
    use crate::tasks::Until;
    use crate::{Registry, Settings, LIMITS};
    use std::mem;
    use std::sync::mpsc::{channel, Sender};
    use std::sync::{Arc, Barrier, Mutex};
    use std::task::Wake;
    use std::thread;
    use std::time::Duration;

    /// Makes a call that needs a CPU.
    struct Gets(Registry<u8>, Mutex<Sender<Option<u8>>>);

    impl Wake for Gets {
        fn wake(self: Arc<Self>) {
            let got = self.0.get("wm").ok().map(|held| *held);
            self.1.lock().unwrap().send(got).unwrap();
        }
    }

    /// The registry has no CPU of its own, so the program may have each.
    #[test]
    fn a_cpu_that_a_call_has_is_waited_for() {
        let registry = Registry::<u8>::open(Settings::new(LIMITS.cpus as u8, 2)).unwrap();
        let ((to, from), begun) = (channel(), Barrier::new(2));
        thread::scope(|scope| {
            registry.seats.with(|cpu| {
                let (id, registry, begun) = (cpu.id(), &registry, &begun);
                scope.spawn(move || {
                    begun.wait();
                    to.send(registry.cpu(id).is_some())
                });
                begun.wait();
                assert!(from.recv_timeout(Duration::from_millis(20)).is_err());
            });
            assert_eq!(from.recv(), Ok(true));
        });
    }

    /// So its code has the only CPU.
    #[test]
    fn a_task_is_woken_once_the_cpu_is_back() {
        let (registry, (to, from)) = (Registry::open(Settings::new(1, 2)).unwrap(), channel());
        let number = registry.attach("wm", 7).unwrap().number;
        let _mine = registry.cpu(0);
        let waker = Arc::new(Gets(registry.clone(), Mutex::new(to))).into();
        registry.seats.with(|cpu| mem::forget(cpu.get("wm").unwrap()));
        for (key, until, is_woken) in [
            (9, Until::Local(5), true),
            (9, Until::Exit(1), true),
            (9, Until::Release(1), true),
            (9, Until::Local(4), false),
            (number, Until::Release(1), false),
        ] {
            registry.shared().tasks.note(key, until, &waker);
            let with = registry.seats.with(|cpu| {
                cpu.let_go(&[5]);
                cpu.wake(cpu.tasks());
                from.try_recv().is_err()
            });
            assert_eq!(with, Some(true));
            assert_eq!(from.try_recv().ok(), is_woken.then_some(Some(7)));
            registry.shared().tasks.forget(key);
        }
    }
}
