//! A graceful shutdown: all entries are taken out, whoever holds one has until a deadline, and the
//! last handle closes the registry.

use kupaldiz::{LocalRef, Name, Patience, Registry, Settings};
use std::error::Error;
use std::sync::mpsc::{channel, sync_channel, Receiver, Sender, SyncSender};
use std::thread;
use std::time::{Duration, Instant};

const DEVICES: [Name; 3] =
    [Name::from_static("wm"), Name::from_static("bge"), Name::from_static("ixl")];

/// Writes what it has when it is dropped, as a buffer does.
struct Device {
    written: SyncSender<Name>,
    name: Name,
}

impl Drop for Device {
    fn drop(&mut self) {
        let _ = self.written.send(self.name);
    }
}

/// Uses a device until the job ends, and says that it has begun.
fn work(device: LocalRef<Device>, begin: &Sender<()>, end: &Receiver<()>) {
    LocalRef::note_here(&device);
    begin.send(()).expect("the program waits");
    let _ = end.recv();
    assert_eq!(device.name, DEVICES[1]);
}

fn main() -> Result<(), Box<dyn Error>> {
    let registry = Registry::open_tracked(Settings::new(2, 4))?;
    let (written, to_write) = sync_channel(DEVICES.len());
    for name in DEVICES {
        let written = written.clone();
        registry.attach(name, Device { written, name })?;
    }
    drop(written);
    let (device, (end, ended)) = (registry.get(DEVICES[1])?, channel());
    let (job, (begin, begun)) = (thread::Builder::new().name("job-1".to_string()), channel());
    let worker = job.spawn(move || work(device, &begin, &ended))?;
    begun.recv()?;

    let deadline = Instant::now() + Duration::from_millis(10);
    let drained = registry.drain(deadline)?;
    println!("{} devices are free, and {} is held", drained.freed.len(), drained.held.len());
    let held = drained.held.into_iter().next().ok_or("nobody holds a device")?;
    assert!(held.to_string().contains("(thread \"job-1\")"), "{held}");

    end.send(())?; // the job is told to end
    held.given.destroy(Patience::Forever)?;
    worker.join().expect("it doesn't panic");
    drop(drained.freed);
    registry.close(Duration::from_secs(60))?;
    println!("closed, and {} devices were written", to_write.iter().count());
    Ok(())
}
