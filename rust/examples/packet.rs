//! An interface table: three CPUs send packets by an interface until a fourth takes it out.
//!
//! A sender looks the interface up for each packet, and keeps it while it sends, which may sleep.
//! The fourth CPU detaches the interface and waits until nobody holds it. From then on nobody sends
//! by it, though no sender took a lock.

use kupaldiz::{Cpu, Found, Kind, Name, Patience, Registry, RegistryError, Settings};
use std::error::Error;
use std::sync::atomic::{AtomicBool, AtomicU32, Ordering};
use std::thread;

/// What an entry carries: of an interface its MTU, of the driver 0.
struct Port {
    mtu: u32,
}

#[derive(Default)]
struct Wire {
    sent: AtomicU32,
    gone: AtomicBool,
}

impl Wire {
    fn send(&self, port: &Port) {
        assert!(!self.gone.load(Ordering::SeqCst) && port.mtu == 1500);
        thread::yield_now();
        assert!(!self.gone.load(Ordering::SeqCst));
        self.sent.fetch_add(1, Ordering::SeqCst);
    }
}

const WM0: (Kind, Name) = (Kind::Iface, Name::from_static("wm0"));

/// Looks the interface up, and keeps it beyond the section while it sends. Whether it was found.
fn send_by(cpu: &Cpu<Port>, wire: &Wire) -> Result<bool, RegistryError> {
    let section = cpu.enter()?;
    let port = match section.find(WM0) {
        Some(found) => Found::acquire(&found)?,
        None => return Ok(false),
    };
    section.exit();
    wire.send(&port); // may sleep
    Ok(true)
}

/// Takes an interface out, waits until nobody holds it, and returns what it carried.
fn take_out(cpu: &Cpu<Port>) -> Result<Port, RegistryError> {
    let retired = cpu.detach(WM0)?;
    let freed = retired.destroy_on(cpu, Patience::Forever)?;
    Ok(freed.value)
}

fn main() -> Result<(), Box<dyn Error>> {
    let wire = Wire::default();
    let registry = Registry::open(Settings::new(4, 4))?;
    let mut cpus = registry.cpus();
    let fourth = cpus.remove(3);
    fourth.attach("wm", Port { mtu: 0 })?;
    fourth.attach_iface("wm", "wm0", Port { mtu: 1500 })?;
    thread::scope(|scope| {
        let wire = &wire;
        let send =
            |cpu| scope.spawn(move || while send_by(&cpu, wire).expect("no limit is met") {});
        let senders: Vec<_> = cpus.into_iter().map(send).collect();
        while wire.sent.load(Ordering::SeqCst) < 1000
            && !senders.iter().all(|sender| sender.is_finished())
        {
            thread::yield_now();
        }
        let port = take_out(&fourth)?;
        wire.gone.store(true, Ordering::SeqCst);
        assert_eq!(port.mtu, 1500);
        Ok::<_, RegistryError>(())
    })?;
    println!("nobody sent by wm0 once it was taken out");
    Ok(())
}
