//! A plug-in host: a driver is a shared library, and an interface a function of it. Workers call a
//! function while the host puts another in its place; and the library is unloaded once the last
//! function of it has gone, whoever detaches what first.
//!
//! The library is libm. Its functions stand for those of a plug-in.

use kupaldiz::{Kind, Patience, Registry, RegistryError, Settings};
use std::error::Error;
use std::ffi::{c_void, CString};
use std::mem;
use std::os::raw::{c_char, c_int};
use std::sync::atomic::{AtomicBool, AtomicU32, Ordering};
use std::thread::{self, ScopedJoinHandle};

extern "C" {
    fn dlopen(path: *const c_char, flags: c_int) -> *mut c_void;
    fn dlsym(library: *mut c_void, name: *const c_char) -> *mut c_void;
    fn dlclose(library: *mut c_void) -> c_int;
}

const RTLD_NOW: c_int = 2;
static UNLOADED: AtomicBool = AtomicBool::new(false);

/// The handle of a library, which is closed as this is dropped.
struct Library(usize);

impl Library {
    fn open(path: &str) -> Result<Library, Box<dyn Error>> {
        // SAFETY: the path ends with a zero byte, and the library's initializers do no harm.
        let handle = unsafe { dlopen(CString::new(path)?.as_ptr(), RTLD_NOW) };
        (!handle.is_null()).then_some(Library(handle as usize)).ok_or_else(|| "no library".into())
    }

    /// A function of the library, which may be called as long as it is open.
    fn function(&self, name: &str) -> Result<Plugin, Box<dyn Error>> {
        // SAFETY: the library is open, and the name ends with a zero byte.
        let at = unsafe { dlsym(self.0 as *mut c_void, CString::new(name)?.as_ptr()) };
        if at.is_null() {
            return Err("no function".into());
        }
        // SAFETY: the functions that this program asks for take a double and return one.
        let function = unsafe { mem::transmute::<*mut c_void, extern "C" fn(f64) -> f64>(at) };
        Ok(Plugin::Function(function, AtomicU32::new(0)))
    }
}

impl Drop for Library {
    fn drop(&mut self) {
        // SAFETY: it is open, and no function of it is left: each was an interface on it.
        assert_eq!(unsafe { dlclose(self.0 as *mut c_void) }, 0);
        UNLOADED.store(true, Ordering::SeqCst);
    }
}

/// What an entry carries.
enum Plugin {
    /// It is kept for its drop.
    Library(#[allow(dead_code)] Library),
    Function(extern "C" fn(f64) -> f64, AtomicU32),
}

impl Plugin {
    /// How often the function was called.
    fn calls(&self) -> u32 {
        match self {
            Plugin::Library(_) => 0,
            Plugin::Function(_, calls) => calls.load(Ordering::Relaxed),
        }
    }
}

/// Calls the function that is there. One always is, also while it is replaced.
fn work(host: &Registry<Plugin>, stop: &AtomicBool) -> Result<(), RegistryError> {
    while !stop.load(Ordering::Relaxed) {
        let plugin = host.get((Kind::Iface, "wave"))?;
        thread::yield_now(); // it may be replaced meanwhile
        if let Plugin::Function(wave, calls) = &*plugin {
            assert!(wave(1.0).abs() <= 1.0 && !UNLOADED.load(Ordering::SeqCst));
            calls.fetch_add(1, Ordering::Relaxed);
        }
    }
    Ok(())
}

/// Waits until a worker has called the function that is there, or none is left.
fn wait_for_call(
    host: &Registry<Plugin>,
    workers: &[ScopedJoinHandle<'_, Result<(), RegistryError>>],
) -> Result<(), RegistryError> {
    let plugin = host.get((Kind::Iface, "wave"))?;
    while plugin.calls() == 0 && !workers.iter().all(|worker| worker.is_finished()) {
        thread::yield_now();
    }
    Ok(())
}

fn main() -> Result<(), Box<dyn Error>> {
    let host = Registry::open(Settings::new(4, 4))?;
    let library = Library::open("libm.so.6")?;
    let functions = [library.function("sin")?, library.function("cos")?];
    host.attach("libm", Plugin::Library(library))?;
    let [first, second] = functions;
    host.attach_iface("libm", "wave", first)?;

    let stop = AtomicBool::new(false);
    let replaced = thread::scope(|scope| {
        let workers: Vec<_> = (0..3).map(|_| scope.spawn(|| work(&host, &stop))).collect();
        wait_for_call(&host, &workers)?;
        let (_, old) = host.replace_iface("libm", "wave", second)?;
        let old = old.destroy(Patience::Forever)?.value; // nobody calls it any more
        wait_for_call(&host, &workers)?;
        stop.store(true, Ordering::Relaxed);
        workers.into_iter().try_for_each(|worker| worker.join().expect("no panic"))?;
        Ok::<_, RegistryError>(old)
    })?;
    assert!(replaced.calls() > 0 && host.get((Kind::Iface, "wave"))?.calls() > 0);

    let library = host.detach("libm")?.destroy(Patience::Turns(1)).unwrap_err();
    println!("the library stays: {library}");
    drop(host.detach((Kind::Iface, "wave"))?);
    assert!(!UNLOADED.load(Ordering::SeqCst));
    drop(library.given.destroy(Patience::Forever)?);
    assert!(UNLOADED.load(Ordering::SeqCst));
    println!("a function was replaced in use, and then the library was unloaded");
    Ok(())
}
