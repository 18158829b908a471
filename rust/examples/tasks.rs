//! Async tasks: each keeps a `LocalRef` across an await, and what is detached is a future, which
//! may have a timeout. No runtime is needed, and any will do.

use kupaldiz::{Freed, LocalRef, Registry, RegistryError, Retired, Settings};
use std::error::Error;
use std::future::Future;
use std::pin::Pin;
use std::sync::Arc;
use std::task::{Context, Poll, Wake, Waker};
use std::thread::{self, Thread};
use std::time::{Duration, Instant};

const THREADS: u32 = 4;
const TASKS: u32 = 100;

/// Wakes the thread that runs a task.
struct Unparks(Thread);

impl Wake for Unparks {
    fn wake(self: Arc<Self>) {
        self.0.unpark();
    }
}

/// Runs a task on this thread.
fn run<F: Future>(task: F) -> F::Output {
    let waker = Waker::from(Arc::new(Unparks(thread::current())));
    let mut task = Box::pin(task);
    loop {
        match task.as_mut().poll(&mut Context::from_waker(&waker)) {
            Poll::Ready(done) => return done,
            Poll::Pending => thread::park_timeout(Duration::from_millis(1)), // the timer's tick
        }
    }
}

/// Lets other tasks run, once.
struct Pause(bool);

impl Future for Pause {
    type Output = ();
    fn poll(mut self: Pin<&mut Self>, context: &mut Context<'_>) -> Poll<()> {
        context.waker().wake_by_ref();
        let was_polled = std::mem::replace(&mut self.0, true);
        was_polled.then_some(()).map_or(Poll::Pending, Poll::Ready)
    }
}

/// Looks the driver up and uses it across an await.
async fn use_driver(registry: &Registry<u32>) -> Result<u32, RegistryError> {
    let driver: LocalRef<u32> = registry.get("wm")?;
    Pause(false).await;
    Ok(*driver)
}

/// What a runtime's `timeout` is, for a detached entry: what it carried, or it comes back.
struct Timeout<T>(Option<Retired<T>>, Instant);

impl<T> Future for Timeout<T> {
    type Output = Result<Freed<T>, Retired<T>>;
    fn poll(mut self: Pin<&mut Self>, context: &mut Context<'_>) -> Poll<Self::Output> {
        let mut retired = self.0.take().expect("it isn't done");
        match Pin::new(&mut retired).poll(context) {
            Poll::Ready(freed) => return Poll::Ready(Ok(freed)),
            Poll::Pending if Instant::now() >= self.1 => return Poll::Ready(Err(retired)),
            Poll::Pending => self.0 = Some(retired),
        }
        Poll::Pending
    }
}

/// A runtime may move such a task to another thread.
fn sent<F: Future + Send>(task: F) -> F {
    task
}

fn main() -> Result<(), Box<dyn Error>> {
    let registry = Registry::open(Settings::new(1, 4))?;
    registry.attach("wm", 1000)?;
    let on_thread = || {
        (0..TASKS)
            .try_for_each(|_| run(sent(use_driver(&registry))).map(|speed| assert_eq!(speed, 1000)))
    };
    thread::scope(|scope| {
        let threads: Vec<_> = (0..THREADS).map(|_| scope.spawn(on_thread)).collect();
        threads.into_iter().try_for_each(|thread| thread.join().expect("it doesn't panic"))
    })?;
    let held = registry.get("wm")?;
    let soon = Instant::now() + Duration::from_millis(5);
    let retired = match run(Timeout(Some(registry.detach("wm")?), soon)) {
        Ok(freed) => return Err(format!("{freed}, though it is held").into()),
        Err(retired) => retired,
    };
    drop(held);
    let freed = run(retired);
    println!("{} tasks, and the driver came back: {}", THREADS * TASKS, freed.value);
    Ok(())
}
