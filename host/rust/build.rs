//! Says where the static library is: in `WAYLLUQEN_LIB_DIR` if that is set, else where `make`, run
//! at the repository's root, writes it.
//!
//! Only linking needs it. So where it is missing, or is not the one that this crate goes with, that
//! is told here as a warning, and it is left to rustc to refuse a build that links.

use std::env;
use std::ffi::OsStr;
use std::fs;
use std::ops::Range;
use std::path::{Path, PathBuf};
use std::time::SystemTime;

const LIB_DIR: &str = "WAYLLUQEN_LIB_DIR";
const ADVICE: &str = "run `make` at the repository's root, or set";

/// The symbol that src/ffi.rs needs.
const INTERFACE: &str = "waylluqen_interface_6";

const ARCHIVE_MAGIC: &[u8] = b"!<arch>\n";
const MEMBER_HEADER: usize = 60;
const MEMBER_SIZE: Range<usize> = 48..58;
const ELF_MAGIC: &[u8] = b"\x7fELF";
const ELF_MACHINE: Range<usize> = 18..20;

/// The repository's root.
fn root() -> PathBuf {
    let package = env::var_os("CARGO_MANIFEST_DIR").expect("cargo sets CARGO_MANIFEST_DIR");
    let root = Path::new(&package).join("../..");
    root.canonicalize().unwrap_or(root)
}

/// The members of an archive: first the index of its symbols, then its objects.
fn members(archive: &[u8]) -> impl Iterator<Item = &[u8]> {
    let mut rest = archive.strip_prefix(ARCHIVE_MAGIC).unwrap_or(&[]);
    std::iter::from_fn(move || {
        let size = std::str::from_utf8(rest.get(MEMBER_SIZE)?).ok()?;
        let size: usize = size.trim_end().parse().ok()?;
        let member = rest.get(MEMBER_HEADER..)?.get(..size)?;
        // Members start at even places.
        rest = rest.get(MEMBER_HEADER + size + size % 2..).unwrap_or(&[]);
        Some(member)
    })
}

/// The number of the first object's machine, as ELF has it.
fn machine(archive: &[u8]) -> Option<u16> {
    let object = members(archive).find(|member| member.starts_with(ELF_MAGIC))?;
    let number = object.get(ELF_MACHINE)?.try_into().ok()?;
    Some(u16::from_le_bytes(number))
}

/// Whether the index has a symbol: how many there are, a place for each, and their names.
fn exports(archive: &[u8], symbol: &str) -> Option<bool> {
    let index = members(archive).next()?;
    let many = u32::from_be_bytes(index.get(..4)?.try_into().ok()?);
    let names = index.get(4 + 4 * usize::try_from(many).ok()?..)?;
    Some(
        names
            .split(|&byte| byte == 0)
            .any(|name| name == symbol.as_bytes()),
    )
}

/// Rust's name of an ELF machine.
fn architecture(machine: Option<u16>) -> &'static str {
    match machine {
        Some(62) => "x86_64",
        Some(183) => "aarch64",
        _ => "another architecture",
    }
}

/// Why the archive can't be linked with this crate, if it can't.
fn unfit(archive: &[u8]) -> Option<String> {
    let wanted = env::var("CARGO_CFG_TARGET_ARCH").expect("cargo sets CARGO_CFG_TARGET_ARCH");
    let built_for = architecture(machine(archive));
    if built_for != wanted {
        return Some(format!("is for {built_for}, not for {wanted}"));
    }
    let same = exports(archive, INTERFACE) == Some(true);
    (!same).then(|| format!("does not export {INTERFACE}: its calls are of another interface"))
}

/// What a folder has in it.
fn entries(folder: &Path) -> impl Iterator<Item = PathBuf> {
    let found = fs::read_dir(folder).into_iter().flatten();
    found.filter_map(|entry| Some(entry.ok()?.path()))
}

/// What the crates are made of: all that their folders have but what `rt` writes to each.
fn sources(crates: &Path) -> Vec<PathBuf> {
    let parts = entries(crates).flat_map(|one| entries(&one));
    parts.filter(|part| !part.ends_with("out")).collect()
}

/// When the newest file below `path` was written.
fn newest(path: &Path) -> Option<SystemTime> {
    if path.is_dir() {
        return entries(path).filter_map(|entry| newest(&entry)).max();
    }
    fs::metadata(path).ok()?.modified().ok()
}

fn is_older(archive: &Path, sources: &[PathBuf]) -> bool {
    let written = sources.iter().filter_map(|part| newest(part)).max();
    matches!((newest(archive), written), (Some(built), Some(written)) if built < written)
}

fn tell(archive: &Path, what: &str) {
    println!(
        "cargo:warning={} {what}: {ADVICE} {LIB_DIR}",
        archive.display()
    );
}

/// Says where the archive is, if it can be linked, and tells what is wrong with it.
fn offer(dir: &Path, archive: &Path, sources: &[PathBuf]) {
    let bytes = match fs::read(archive) {
        Ok(bytes) => bytes,
        Err(_) => return tell(archive, "is missing, which only linking needs"),
    };
    if let Some(why) = unfit(&bytes) {
        return tell(archive, &why);
    }
    if is_older(archive, sources) {
        tell(archive, "is older than crates/");
    }
    println!("cargo:rustc-link-search=native={}", dir.display());
}

fn main() {
    let chosen = env::var_os(LIB_DIR).filter(|dir| dir != OsStr::new(""));
    let dir = chosen.map_or_else(|| root().join("target/staticlib"), PathBuf::from);
    let archive = dir.join("libwaylluqen.a");
    let sources = sources(&root().join("crates"));
    println!("cargo:rerun-if-env-changed={LIB_DIR}");
    println!("cargo:rerun-if-changed=build.rs");
    println!("cargo:rerun-if-changed={}", archive.display());
    for part in &sources {
        println!("cargo:rerun-if-changed={}", part.display());
    }
    println!("cargo:rustc-link-lib=static=waylluqen");
    offer(&dir, &archive, &sources);
}
