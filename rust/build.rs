//! Tells where the archive lies. README.md has the order in which it is looked for; of another
//! processor than `x86_64` it is in a folder of that name. Where none is there, the crate is only
//! checked: what links says how to get one.
//!
//! The limits that the archive was built for are in kupaldiz_limits.h: beside it, with the
//! installed headers, or else in this crate. They are constants of the crate. The header also names
//! the archive's version: over one of another version the crate doesn't compile.

use std::env;
use std::fs;
use std::path::{Path, PathBuf};
use std::process::Command;

/// A library that may be linked: its folder, its name without `lib` and `.a`, and the folder of its
/// header.
struct Archive {
    folder: PathBuf,
    name: &'static str,
    header: PathBuf,
}

impl Archive {
    fn path(&self) -> PathBuf {
        self.folder.join(format!("lib{}.a", self.name))
    }

    /// The header with its limits; this crate's own where none lies there.
    fn limits(&self, here: &Path) -> PathBuf {
        let beside = self.header.join("kupaldiz_limits.h");
        Some(beside)
            .filter(|header| header.exists())
            .unwrap_or_else(|| here.join("kupaldiz_limits.h"))
    }
}

fn main() {
    let here = PathBuf::from(env::var_os("CARGO_MANIFEST_DIR").unwrap());
    let found = find(&here);
    let target = |what: &str| env::var(format!("CARGO_CFG_TARGET_{what}")).unwrap_or_default();
    let built_for = [("linux", "gnu", "x86_64"), ("linux", "gnu", "aarch64")];
    if !built_for.contains(&(&target("OS"), &target("ENV"), &target("ARCH"))) {
        println!(
            "cargo:warning=the archive is built for Linux on x86-64 and aarch64 with glibc alone: \
             here the crate is only checked"
        );
    } else if !found.path().exists() {
        println!(
            "cargo:warning=there is no {}: tools/build-archive.sh makes it, a release has it, and \
             KUPALDIZ_LIB_DIR names another folder that has it",
            found.path().display()
        );
    }
    println!("cargo:rustc-link-search=native={}", found.folder.display());
    println!("cargo:rustc-link-lib=static={}", found.name);
    println!("cargo:rerun-if-env-changed=KUPALDIZ_LIB_DIR");
    println!("cargo:rerun-if-changed={}", found.path().display());
    write_limits(&found.limits(&here));
}

/// The first archive that is there, else the one that the repository would have.
fn find(here: &Path) -> Archive {
    let registry =
        |folder: PathBuf| Archive { header: folder.clone(), folder, name: "kupaldiz_proved" };
    if let Some(folder) = env::var_os("KUPALDIZ_LIB_DIR") {
        return registry(PathBuf::from(folder));
    }
    let (processor, out) = (env::var("CARGO_CFG_TARGET_ARCH").unwrap(), here.join("../out"));
    let within = registry(here.join("archive").join(&processor));
    let made = || registry(if processor == "x86_64" { out.clone() } else { out.join(&processor) });
    let is_there = |archive: &Archive| archive.path().exists();
    [within, made()]
        .into_iter()
        .find(is_there)
        .or_else(|| installed().filter(is_there))
        .unwrap_or_else(made)
}

/// The library as pkg-config knows it.
fn installed() -> Option<Archive> {
    Some(Archive { folder: variable("libdir")?, name: "kupaldiz", header: variable("includedir")? })
}

/// A folder of the installed library, as pkg-config says it.
fn variable(name: &str) -> Option<PathBuf> {
    let command = env::var_os("PKG_CONFIG").unwrap_or_else(|| "pkg-config".into());
    let said =
        Command::new(command).arg(format!("--variable={name}")).arg("kupaldiz").output().ok()?;
    let folder = String::from_utf8(said.stdout).ok()?;
    said.status.success().then(|| PathBuf::from(folder.trim()))
}

/// What this crate and its archive have in common: the major and the minor version, or from 1 on
/// the major one.
fn version() -> Vec<String> {
    let part = |name: &str| env::var(format!("CARGO_PKG_VERSION_{name}")).unwrap();
    let mut parts = vec![part("MAJOR"), part("MINOR")];
    parts.truncate(if parts[0] == "0" { 2 } else { 1 });
    parts
}

/// Writes limits.rs, which src/ffi.rs includes: the limits of the header as constants, and the call
/// whose name has two of them and the version.
fn write_limits(header: &Path) {
    println!("cargo:rerun-if-changed={}", header.display());
    let text =
        fs::read_to_string(header).unwrap_or_else(|fault| panic!("{}: {fault}", header.display()));
    let said = |name: &str| {
        let mut lines = text
            .lines()
            .filter_map(|line| line.strip_prefix("#define KUPALDIZ_")?.strip_prefix(name));
        let value =
            lines.next().unwrap_or_else(|| panic!("{} has no KUPALDIZ_{name}", header.display()));
        value.replace("UINT64_C", "").replace(['(', ')'], "").trim().to_string()
    };
    let mut limits = String::new();
    for (name, kind) in [
        ("CPUS", "usize"),
        ("SLOTS", "usize"),
        ("CHANGES", "u64"),
        ("SECTIONS", "u64"),
        ("COUNT", "u64"),
        ("DEPTH", "u64"),
    ] {
        limits += &format!("pub const MOST_{name}: {kind} = {};\n", said(&format!("MOST_{name}")));
    }
    let (built_for, name) = (said("BUILT_FOR"), version().join("_"));
    assert!(
        built_for.ends_with(&format!("_slots_v{name}")),
        "{}: the library is {built_for}, of another version than this crate, {}",
        header.display(),
        env::var("CARGO_PKG_VERSION").unwrap()
    );
    let call = "pub fn kupaldiz_built_for(limits: *const Limits) -> u32;";
    limits += &format!("extern \"C\" {{\n    #[link_name = \"{built_for}\"]\n    {call}\n}}\n");
    let to = Path::new(&env::var_os("OUT_DIR").unwrap()).join("limits.rs");
    fs::write(&to, limits).unwrap_or_else(|fault| panic!("{}: {fault}", to.display()));
}
