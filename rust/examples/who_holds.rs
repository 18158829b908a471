//! Who holds an entry as a removal gives up: each line that acquired a reference, and its thread.

use kupaldiz::{Patience, Registry, Settings};
use std::error::Error;
use std::thread;
use std::time::Duration;

fn main() -> Result<(), Box<dyn Error>> {
    let registry = Registry::open_tracked(Settings::default())?;
    registry.attach("wm0", 1500)?;
    let (worker, theirs) = (thread::Builder::new().name("rx-1".to_string()), registry.clone());
    let one = worker.spawn(move || theirs.get("wm0"))?.join().expect("no panic")?;
    let two = registry.get("wm0")?;

    let retired = registry.detach("wm0")?;
    let held = match retired.destroy(Duration::from_millis(10)) {
        Ok(freed) => return Err(format!("{freed}").into()),
        Err(held) => held, // two references to it are held
    };
    println!("{held}");
    drop((one, two));
    assert_eq!(held.given.destroy(Patience::Forever)?.value, 1500);
    Ok(())
}
