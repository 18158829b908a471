//! A whole program on one page: it opens a registry, attaches an entry, looks it up and takes it
//! away. Dropping the handles closes the registry.

use kupaldiz::{Patience, Registry, Settings};
use std::error::Error;

fn main() -> Result<(), Box<dyn Error>> {
    let registry = Registry::open(Settings::default())?;
    registry.attach("wm0", 1500)?;
    println!("wm0 has value {}", *registry.get("wm0")?);

    let retired = registry.detach("wm0")?;
    let freed = retired.destroy(Patience::Forever)?;
    assert_eq!(freed.value, 1500);
    Ok(())
}
