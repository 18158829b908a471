//! A table of 10,000 connections: threads send to them by number, while one of them closes each and
//! gets it back once no thread uses it.

use kupaldiz::{Patience, Table};
use std::error::Error;
use std::sync::atomic::{AtomicU64, Ordering};
use std::thread;

const CONNECTIONS: u64 = 10_000;

struct Connection {
    id: u64,
    sent: AtomicU64,
}

fn main() -> Result<(), Box<dyn Error + Send + Sync>> {
    let table = Table::open(4, CONNECTIONS as u32)?;
    for id in 0..CONNECTIONS {
        table
            .attach(id, Connection { id, sent: AtomicU64::new(0) })
            .map_err(|refused| refused.refusal)?;
    }
    let send_all = || {
        let thread = table.thread().expect("a handle for each thread");
        for id in 0..CONNECTIONS {
            if let Ok(connection) = thread.get(id) {
                connection.sent.fetch_add(1, Ordering::Relaxed);
            }
        }
    };
    let closed = thread::scope(|scope| {
        (0..3).for_each(|_| drop(scope.spawn(send_all)));
        let close = |id| table.detach(id).ok()?.destroy(Patience::Forever).ok();
        (0..CONNECTIONS).filter_map(close).filter(|freed| freed.value.id < CONNECTIONS).count()
    });
    table.close(Patience::Forever).map_err(|refused| refused.refusal)?;
    println!("{closed} connections were closed, and given back");
    Ok(())
}
