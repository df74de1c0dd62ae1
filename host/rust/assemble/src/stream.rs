//! Files, standard input, output and error, with errors as a user reads them.

use crate::quote::named;
use std::ffi::OsStr;
use std::fs::File;
use std::io::{self, Read, Write};
use std::os::fd::AsFd;

/// The system's words for an error, without the number that Rust adds.
pub fn reason(error: &io::Error) -> String {
    let told = error.to_string();
    match told.split_once(" (os error ") {
        Some((words, _)) => words.to_string(),
        None => told,
    }
}

/// A standard stream as a file. Rust's own handles say nothing of a descriptor that is open the
/// other way only: they read it as empty, and write into it as into /dev/null.
fn as_file(stream: impl AsFd) -> io::Result<File> {
    stream.as_fd().try_clone_to_owned().map(File::from)
}

/// The bytes of a file, or of standard input for `-`, or what is wrong. More than `most` MiB are
/// an error, so that a file without an end is one.
pub fn read(file: &OsStr, most: u64) -> Result<Vec<u8>, String> {
    let (name, source) = match file == "-" {
        true => ("standard input".to_string(), as_file(io::stdin())),
        false => (named(file), File::open(file)),
    };
    let mut bytes = Vec::new();
    let read = source.and_then(|source| source.take((most << 20) + 1).read_to_end(&mut bytes));
    match read {
        Ok(length) if length as u64 > most << 20 => Err(format!("{name}: longer than {most} MiB")),
        Ok(_) => Ok(bytes),
        Err(error) => Err(format!("{name}: {}", reason(&error))),
    }
}

pub fn write(bytes: &[u8]) -> Result<(), String> {
    let written = as_file(io::stdout()).and_then(|mut out| match bytes {
        // No bytes need a place too, and `write_all` would not look for one.
        [] => out.write(bytes).map(|_| ()),
        _ => out.write_all(bytes),
    });
    written.map_err(|error| format!("standard output: {}", reason(&error)))
}

/// `eprint!` would panic where standard error takes nothing.
pub fn tell(message: &str) {
    let _ = io::stderr().write_all(message.as_bytes());
}

#[cfg(test)]
mod tests {
    use super::*;

    #[test]
    fn a_reason_has_no_error_number() {
        let error = File::open("no/such/file").unwrap_err();
        assert_eq!(reason(&error), "No such file or directory");
    }

    #[test]
    fn a_file_is_read_up_to_a_limit() {
        let path = std::env::temp_dir().join(format!("waylluqen-read-{}", std::process::id()));
        let read_of = |length: usize| {
            std::fs::write(&path, vec![b'#'; length]).unwrap();
            read(path.as_os_str(), 1)
        };
        let (whole, longer) = (read_of(1 << 20), read_of((1 << 20) + 1));
        std::fs::remove_file(&path).unwrap();
        assert_eq!(whole.map(|bytes| bytes.len()), Ok(1 << 20));
        let name = named(path.as_os_str());
        assert_eq!(longer, Err(format!("{name}: longer than 1 MiB")));
        let endless = read(OsStr::new("/dev/zero"), 1);
        assert_eq!(endless, Err("/dev/zero: longer than 1 MiB".to_string()));
    }

    #[test]
    fn a_name_is_shown_on_one_line() {
        let told = read(OsStr::new("no\n\x1b[31mfile"), 1).unwrap_err();
        assert_eq!(told, r"no\n\x1b[31mfile: No such file or directory");
    }
}
