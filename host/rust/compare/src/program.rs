//! Runs the script program, and gathers what it prints.

use crate::unread::unread;
use std::env;
use std::fs::{self, File, OpenOptions};
use std::io::{Read, Seek, Write};
use std::path::{Path, PathBuf};
use std::process::{self, ChildStdin, Command, ExitStatus, Stdio};
use std::sync::atomic::{AtomicBool, AtomicU64, Ordering};
use std::sync::mpsc::channel;
use std::thread;
use std::time::Duration;

/// Where the program is, if not where `host/prove check vmbind` writes it.
const PROGRAM: &str = "VMBIND";

/// Longer than any script takes, also where there is much else to do.
const MOST_TIME: Duration = Duration::from_secs(120);

/// No more than this is read of what should not be there.
const SPARE: usize = 4096;

pub fn path() -> PathBuf {
    let default = || Path::new(env!("CARGO_MANIFEST_DIR")).join("../../../target/bin/vmbind");
    let path = env::var_os(PROGRAM).map_or_else(default, PathBuf::from);
    assert!(
        path.is_file(),
        "{} is missing: run `host/prove check vmbind` at the repository's root, or set {PROGRAM}",
        path.display()
    );
    path
}

/// How a script comes to the program.
#[derive(Clone, Copy, Debug)]
pub enum Input<'a> {
    /// As a file: each read gets all that it asks for.
    File,
    /// Through a pipe, as fast as it goes.
    Pipe,
    /// Through a pipe, in chunks of these lengths over and over. A chunk is written when the one
    /// before it has been read, so that no read gets bytes of two.
    Chunks(&'a [usize]),
}

/// What a run left.
pub struct Ran {
    pub out: Vec<u8>,
    pub err: String,
    pub status: ExitStatus,
}

impl Ran {
    /// Whether it came to its end as it should, and printed nothing but `out`.
    pub fn is_plain(&self, out: &str) -> bool {
        self.out == out.as_bytes() && self.err.is_empty() && self.status.success()
    }
}

/// A new file with these bytes, at its start, that goes when it is closed.
pub fn file_of(bytes: &[u8]) -> File {
    static FILES: AtomicU64 = AtomicU64::new(0);
    let number = FILES.fetch_add(1, Ordering::Relaxed);
    let name = format!("vmbind-script-{}-{number}", process::id());
    let path = env::temp_dir().join(name);
    let mut options = OpenOptions::new();
    options.read(true).write(true).create_new(true);
    let mut file = options.open(&path).expect("a new file");
    fs::remove_file(&path).expect("it is there");
    file.write_all(bytes).expect("room for a script");
    file.rewind().expect("a file has a start");
    file
}

/// Keeps a copy of a script that was answered wrongly.
pub fn keep(test: &str, bytes: &[u8]) -> PathBuf {
    let name = format!("vmbind-wrong-{}", test.replace(' ', "-"));
    let path = env::temp_dir().join(name);
    fs::write(&path, bytes).expect("room for a script");
    path
}

/// Runs the program on a script, for which it should print `most` bytes and no more.
pub fn run(script: &[u8], input: Input, most: usize) -> Ran {
    let mut command = Command::new(path());
    command.stdout(Stdio::piped());
    match input {
        Input::File => command.stdin(file_of(script)),
        Input::Pipe | Input::Chunks(_) => command.stdin(Stdio::piped()),
    };
    let feed = |pipe: ChildStdin, ended: &AtomicBool| match input {
        Input::Chunks(lengths) => feed_chunks(pipe, script, lengths, ended),
        Input::File | Input::Pipe => feed_all(pipe, script),
    };
    gather(&mut command, feed, most)
}

/// A program that has stopped takes no more; what it printed tells whether that was right.
fn feed_all(mut pipe: ChildStdin, script: &[u8]) {
    pipe.write_all(script).ok();
}

fn feed_chunks(mut pipe: ChildStdin, script: &[u8], lengths: &[usize], ended: &AtomicBool) {
    let mut rest = script;
    for &length in lengths.iter().cycle() {
        let (chunk, behind) = rest.split_at(length.min(rest.len()));
        if chunk.is_empty() || pipe.write_all(chunk).is_err() {
            return;
        }
        while unread(&pipe) > 0 {
            if ended.load(Ordering::Relaxed) {
                return;
            }
            thread::yield_now();
        }
        rest = behind;
    }
}

/// Starts a command, feeds its standard input if that is a pipe, and waits for its end.
pub fn gather(
    command: &mut Command,
    feed: impl FnOnce(ChildStdin, &AtomicBool) + Send,
    most: usize,
) -> Ran {
    let mut child = command
        .stderr(Stdio::piped())
        .spawn()
        .expect("the program starts");
    let (stdin, stdout, stderr) = (child.stdin.take(), child.stdout.take(), child.stderr.take());
    let ended = AtomicBool::new(false);
    let (sender, receiver) = channel();
    thread::scope(|scope| {
        if let Some(pipe) = stdin {
            scope.spawn(|| feed(pipe, &ended));
        }
        scope.spawn(|| {
            let out = stdout.map_or(Vec::new(), |pipe| read_most(pipe, most + SPARE));
            let err = stderr.map_or(Vec::new(), |pipe| read_most(pipe, SPARE));
            ended.store(true, Ordering::Relaxed);
            sender.send((out, err)).ok();
        });
        let gathered = receiver.recv_timeout(MOST_TIME);
        if gathered.is_err() {
            child.kill().ok();
        }
        let status = child.wait().expect("it was started here");
        let (out, err) = gathered.expect("the program has not ended for a long time");
        let err = String::from_utf8_lossy(&err).into_owned();
        Ran { out, err, status }
    })
}

/// All that comes, but no more than so many bytes: a program that never stops is stopped by that.
fn read_most(pipe: impl Read, most: usize) -> Vec<u8> {
    let mut bytes = Vec::new();
    let limit = u64::try_from(most).expect("64 bits");
    pipe.take(limit)
        .read_to_end(&mut bytes)
        .expect("a pipe can be read");
    bytes
}
