//! CPUs that are lent, for programs with more threads than CPUs.

use crate::cpu::Cpu;
use crate::error::CpusError;
use crate::lock::{locked, Mutex, MutexGuard};
use crate::tasks::Tasks;
use std::fmt;
use std::future::Future;
use std::marker::PhantomData;
use std::ops::Deref;
use std::panic::Location;
use std::pin::Pin;
use std::sync::atomic::{AtomicU64, Ordering};
use std::sync::{Condvar, PoisonError};
use std::task::{Context, Poll};
use std::thread::{self, ThreadId};
use std::time::Instant;

/// CPUs of one registry that any thread may borrow, each for a batch of calls: for one call the
/// registry [chooses one itself](crate::Registry::get). Lending and taking back take a lock each. A
/// section or a [`PassiveRef`](crate::PassiveRef) on a lent CPU borrows the loan: to sleep, acquire
/// a [`LocalRef`](crate::LocalRef), and drop the loan.
///
/// A thread needs one loan at a time. Name it by a `let`: of two loans in one expression, the second
/// would wait for the first where the pool has one CPU. [`lend`](CpuPool::lend) panics then.
///
/// ```
/// use kupaldiz::{CpuPool, Registry, Settings};
///
/// let registry = Registry::open(Settings::new(2, 4)).unwrap();
/// registry.attach("wm", 7).unwrap();
/// let pool = CpuPool::new(registry.cpus()).unwrap();
/// let cpu = pool.lend();
/// assert_eq!(*cpu.read("wm").unwrap(), 7);
/// drop(cpu);
/// assert_eq!(pool.into_cpus().len(), 2);
/// ```
pub struct CpuPool<T> {
    state: Mutex<State<T>>,
    returned: Condvar,
    /// Tasks that wait for a CPU: all are woken as one comes back.
    tasks: Tasks<()>,
    /// How many futures there were: the key of the next.
    futures: AtomicU64,
}

struct State<T> {
    idle: Vec<Cpu<T>>,
    loans: Vec<Loan>,
}

type Locked<'pool, T> = MutexGuard<'pool, State<T>>;

/// A loan that isn't back. It stays on its thread.
struct Loan {
    cpu: u8,
    thread: ThreadId,
    place: &'static Location<'static>,
}

impl<T> State<T> {
    /// A CPU for this thread, if one is there.
    fn lend<'pool>(
        &mut self,
        pool: &'pool CpuPool<T>,
        place: &'static Location<'static>,
    ) -> Option<LentCpu<'pool, T>> {
        let thread = thread::current().id();
        let cpu = self.idle.pop()?;
        self.loans.push(Loan { cpu: cpu.id(), thread, place });
        Some(LentCpu { pool, cpu: Some(cpu), thread: PhantomData })
    }

    /// The first loan that this thread has.
    fn of_this_thread(&self) -> Option<&Loan> {
        let this = thread::current().id();
        self.loans.iter().find(|loan| loan.thread == this)
    }
}

impl<T> CpuPool<T> {
    /// A pool of these CPUs.
    ///
    /// # Errors
    ///
    /// `MissingCpu` if there is none, `OtherRegistry` if they aren't of one registry. The CPUs go
    /// back to their registries then.
    pub fn new<C: IntoIterator<Item = Cpu<T>>>(cpus: C) -> Result<CpuPool<T>, CpusError> {
        let cpus: Vec<Cpu<T>> = cpus.into_iter().collect();
        let shared = cpus.first().ok_or(CpusError::MissingCpu)?.shared();
        if !cpus.iter().all(|cpu| cpu.is_of(shared)) {
            return Err(CpusError::OtherRegistry);
        }
        Ok(CpuPool {
            state: Mutex::new(State { loans: Vec::with_capacity(cpus.len()), idle: cpus }),
            returned: Condvar::new(),
            tasks: Tasks::default(),
            futures: AtomicU64::new(0),
        })
    }

    /// Lends a CPU. If all are lent, it waits until one comes back.
    ///
    /// # Panics
    ///
    /// If all are lent, and this thread has one of them: it would keep that while it waits. The
    /// text says where it was lent.
    #[track_caller]
    pub fn lend(&self) -> LentCpu<'_, T> {
        let lent = self.lend_by(Location::caller(), |state| {
            if let Some(&Loan { cpu, place, .. }) = state.of_this_thread() {
                drop(state);
                panic!("no CPU is idle, and this thread has CPU {cpu} of the pool since {place}");
            }
            Some(self.returned.wait(state).unwrap_or_else(PoisonError::into_inner))
        });
        lent.expect("a wait without a deadline")
    }

    /// Lends a CPU, if one is there.
    #[track_caller]
    pub fn try_lend(&self) -> Option<LentCpu<'_, T>> {
        self.state().lend(self, Location::caller())
    }

    /// Lends a CPU. If all are lent, it waits until one comes back, or the time has come.
    #[track_caller]
    pub fn lend_until(&self, deadline: Instant) -> Option<LentCpu<'_, T>> {
        self.lend_by(Location::caller(), |state| {
            let left =
                deadline.checked_duration_since(Instant::now()).filter(|left| !left.is_zero())?;
            let waited = self.returned.wait_timeout(state, left);
            Some(waited.unwrap_or_else(PoisonError::into_inner).0)
        })
    }

    /// Lends a CPU as soon as one is there. Until then it waits by `wait`, which may give up.
    /// Another thread may take the CPU that came back.
    fn lend_by<'pool>(
        &'pool self,
        place: &'static Location<'static>,
        mut wait: impl FnMut(Locked<'pool, T>) -> Option<Locked<'pool, T>>,
    ) -> Option<LentCpu<'pool, T>> {
        let mut state = self.state();
        loop {
            match state.lend(self, place) {
                None => state = wait(state)?,
                lent => return lent,
            }
        }
    }

    /// Lends a CPU to a task, which waits without occupying its thread. The loan stays on the
    /// thread that polls: release it before the next `.await`. The task is woken as a CPU comes
    /// back. Another task may take that before, and then it waits on.
    #[track_caller]
    pub fn lend_async(&self) -> impl Future<Output = LentCpu<'_, T>> {
        LendFuture {
            pool: self,
            key: self.futures.fetch_add(1, Ordering::Relaxed),
            place: Location::caller(),
        }
    }

    fn state(&self) -> Locked<'_, T> {
        locked(&self.state)
    }

    /// The CPUs, in any order, except for those whose loan was forgotten.
    #[must_use]
    pub fn into_cpus(self) -> Vec<Cpu<T>> {
        self.state.into_inner().unwrap_or_else(PoisonError::into_inner).idle
    }
}

impl<T> fmt::Debug for CpuPool<T> {
    fn fmt(&self, f: &mut fmt::Formatter<'_>) -> fmt::Result {
        let idle = self.state().idle.len(); // and no lock while somebody reads this
        f.debug_struct("CpuPool").field("idle", &idle).finish()
    }
}

/// A loan that is waited for.
struct LendFuture<'pool, T> {
    pool: &'pool CpuPool<T>,
    key: u64,
    place: &'static Location<'static>,
}

impl<'pool, T> Future for LendFuture<'pool, T> {
    type Output = LentCpu<'pool, T>;

    fn poll(self: Pin<&mut Self>, context: &mut Context<'_>) -> Poll<LentCpu<'pool, T>> {
        let (pool, place) = (self.pool, self.place);
        if let Some(lent) = pool.state().lend(pool, place) {
            return Poll::Ready(lent);
        }
        pool.tasks.note(self.key, (), context.waker());
        let lent = pool.state().lend(pool, place);
        lent.map_or(Poll::Pending, Poll::Ready)
    }
}

impl<T> Drop for LendFuture<'_, T> {
    fn drop(&mut self) {
        self.pool.tasks.forget(self.key);
    }
}

/// A CPU that is lent, for the thread that has borrowed it. Dropping it returns the CPU, outside of
/// any section. If it is forgotten, the CPU is lost to the pool and to its registry.
#[must_use = "a CPU that is dropped at once is back in its pool"]
pub struct LentCpu<'pool, T> {
    pool: &'pool CpuPool<T>,
    /// There until it is dropped.
    cpu: Option<Cpu<T>>,
    /// It stays on its thread, so that the pool knows which loans a thread has.
    thread: PhantomData<*const ()>,
}

impl<T> LentCpu<'_, T> {
    /// Exits all sections that are still open, as [`Cpu::leave`] does: their guards were forgotten.
    pub fn leave(&mut self) {
        if let Some(cpu) = &mut self.cpu {
            cpu.leave();
        }
    }
}

impl<T> AsRef<Cpu<T>> for LentCpu<'_, T> {
    fn as_ref(&self) -> &Cpu<T> {
        self
    }
}

impl<T> Deref for LentCpu<'_, T> {
    type Target = Cpu<T>;

    #[inline]
    fn deref(&self) -> &Cpu<T> {
        self.cpu.as_ref().expect("a CPU until it is dropped")
    }
}

impl<T> Drop for LentCpu<'_, T> {
    fn drop(&mut self) {
        if let Some(mut cpu) = self.cpu.take() {
            let (pool, id) = (self.pool, cpu.id());
            cpu.exit_all();
            let meant = cpu.tasks().meant(|number, until| cpu.lets_go(number, *until));
            let mut state = pool.state();
            state.loans.retain(|loan| loan.cpu != id);
            state.idle.push(cpu);
            drop(state);
            pool.returned.notify_one();
            pool.tasks.wake(|_, ()| true);
            meant.wake();
        }
    }
}

impl<T> fmt::Debug for LentCpu<'_, T> {
    fn fmt(&self, f: &mut fmt::Formatter<'_>) -> fmt::Result {
        f.debug_tuple("LentCpu").field(&**self).finish()
    }
}

#[cfg(test)]
mod tests {
    use super::{CpuPool, Location};
    use crate::{Registry, Settings};
    use std::sync::mpsc::channel;
    use std::thread;
    use std::time::Duration;

    fn pool() -> CpuPool<()> {
        CpuPool::new(Registry::open(Settings::new(1, 1)).unwrap().cpus()).unwrap()
    }

    #[test]
    fn a_loan_waits_on_where_another_takes_the_cpu() {
        let pool = pool();
        let (mut other, mut woken) = (Some(pool.lend()), 0);
        let lent = pool.lend_by(Location::caller(), |state| {
            drop(state);
            woken += 1;
            other = other.take().filter(|_| woken < 20);
            Some(pool.state())
        });
        assert_eq!((lent.map(|cpu| cpu.id()), woken), (Some(0), 20));
    }

    /// So a thread that is about to wait as the CPU comes back misses nothing. Else it waits for
    /// ever.
    #[test]
    fn a_cpu_is_in_its_pool_before_anybody_is_woken() {
        let (pool, (to, from)) = (&pool(), channel());
        thread::scope(|scope| {
            scope.spawn(move || {
                let _cpu = pool.lend();
                from.recv()
            });
            while pool.try_lend().is_some() {
                thread::yield_now();
            }
            let lent = pool.lend_by(Location::caller(), |state| {
                let _ = to.send(());
                thread::sleep(Duration::from_millis(20));
                Some(pool.returned.wait(state).unwrap())
            });
            assert_eq!(lent.map(|cpu| cpu.id()), Some(0));
        });
    }
}
