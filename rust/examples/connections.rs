//! A connection table: an acceptor attaches connections by their numbers, workers get references to
//! them through a channel, and a connection that is closed ends once its last message is sent.

use kupaldiz::{LocalRef, Patience, Registry, RegistryError, Settings};
use std::error::Error;
use std::sync::atomic::{AtomicU32, Ordering};
use std::sync::mpsc::{channel, Receiver};
use std::sync::{Arc, Mutex};
use std::thread;

/// A connection. A worker that has a reference to one may send by it, also after it was closed.
struct Connection {
    peer: u64,
    sent: AtomicU32,
}

/// What a worker is to send, and by what.
type Message = (LocalRef<Connection>, u32);

const PEERS: u64 = 20;
const MESSAGES: u32 = 50;

fn work(messages: &Mutex<Receiver<Message>>) {
    loop {
        let next = messages.lock().expect("no worker panics").recv();
        let (connection, bytes) = match next {
            Ok(message) => message,
            Err(_) => return, // nobody sends any more
        };
        thread::yield_now(); // the connection may be closed meanwhile
        connection.sent.fetch_add(bytes, Ordering::Relaxed);
    }
}

/// Takes a connection out of the table, and waits until no worker has it.
fn close(table: &Registry<Connection>, peer: u64) -> Result<u32, RegistryError> {
    let freed = table.detach(peer)?.destroy(Patience::Forever)?;
    assert_eq!(freed.value.peer, peer);
    Ok(freed.value.sent.into_inner())
}

fn main() -> Result<(), Box<dyn Error>> {
    let table = Registry::open(Settings::new(4, PEERS as u8))?;
    let (to, messages) = channel();
    let messages = Arc::new(Mutex::new(messages));
    let workers: Vec<_> = (0..3)
        .map(|_| {
            let messages = Arc::clone(&messages);
            thread::spawn(move || work(&messages))
        })
        .collect();
    let mut sent = 0;
    for peer in 0..PEERS {
        table.attach(peer, Connection { peer, sent: AtomicU32::new(0) })?;
        let connection = table.get(peer)?;
        for _ in 0..MESSAGES {
            to.send((connection.clone(), 1))?; // no lookup, and no CPU
        }
        drop(connection);
        if peer % 2 == 1 {
            sent += close(&table, peer)?;
        }
    }
    drop(to);
    for worker in workers {
        worker.join().map_err(|_| "a worker panicked")?;
    }
    let drained = table.drain(Patience::Forever)?;
    sent += drained.freed.iter().map(|freed| freed.value.sent.load(Ordering::Relaxed)).sum::<u32>();
    assert_eq!(sent, PEERS as u32 * MESSAGES);
    println!("{PEERS} connections were closed, and {sent} messages sent");
    Ok(())
}
