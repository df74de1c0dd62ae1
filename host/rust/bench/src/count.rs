//! Instructions a call, counted by valgrind: the same in every run of the same program.

use crate::timed::{Contenders, Timed};
use std::fs;
use std::hint::black_box;
use std::path::Path;
use std::process::{Command, Stdio};

/// The argument, in front of a kind of lines, with which this program runs itself under valgrind.
pub const COUNT: &str = "count";

/// Has the C library move and clear long runs in a loop: of an instruction that repeats itself
/// valgrind counts each byte.
const IN_A_LOOP: &str = "glibc.cpu.x86_rep_movsb_threshold=1000000000:\
    glibc.cpu.x86_rep_stosb_threshold=1000000000";

/// What valgrind counts, from its first instruction to its last.
#[inline(never)]
fn counted_calls<L: Timed>(line: &L, manager: &mut L::Manager, lent: &mut [u64]) {
    line.make_calls(manager, lent);
    // Not a jump to the last call, which valgrind would not see return.
    black_box(lent);
}

/// Makes the calls of each line with each contender once, to be counted.
pub fn make_counted_calls<L: Timed>(contenders: &Contenders<L>, lines: &[L]) {
    for line in lines {
        let mut lent = line.lent();
        for contender in contenders {
            let mut manager = (contender.begin)(line.start());
            // Once before, so that what is done at first only is not counted.
            line.make_calls(&mut *manager, &mut lent);
            counted_calls(line, &mut *manager, &mut lent);
        }
    }
}

/// The instructions in one file that valgrind wrote.
fn instructions(file: &Path) -> Option<f64> {
    let text = fs::read_to_string(file).ok()?;
    let total = text.lines().find_map(|line| line.strip_prefix("summary:"));
    total?.trim().parse().ok()
}

/// For each line the instructions a call of each contender; nothing without valgrind. The files
/// that it writes go to a folder of their own, which is made anew.
pub fn count<L: Timed>(
    contenders: &Contenders<L>,
    lines: &[L],
    folder: &Path,
) -> Option<Vec<Vec<f64>>> {
    let _ = fs::remove_dir_all(folder);
    fs::create_dir_all(folder).ok()?;
    let file = folder.join("counted");
    let mut valgrind = Command::new("valgrind");
    valgrind.env("GLIBC_TUNABLES", IN_A_LOOP);
    valgrind.args(["--tool=callgrind", "--quiet"]);
    valgrind.arg(format!("--callgrind-out-file={}", file.display()));
    // Some valgrinds leave the hash at the end of a Rust function's name.
    for hash in ["", "::h*"] {
        let function = format!("waylluqen_bench::count::counted_calls{hash}");
        valgrind.arg(format!("--toggle-collect={function}"));
        valgrind.arg(format!("--dump-after={function}"));
    }
    let status = valgrind
        .arg(std::env::current_exe().ok()?)
        .args([COUNT, L::KIND])
        .stderr(Stdio::null())
        .status();
    if !status.is_ok_and(|status| status.success()) {
        return None;
    }
    let mut dump = 0;
    let mut next = |calls: usize| {
        dump += 1;
        let counted = instructions(&folder.join(format!("counted.{dump}")))?;
        Some(counted / calls as f64)
    };
    let of_line = |line: &L| contenders.iter().map(|_| next(line.calls())).collect();
    lines.iter().map(of_line).collect()
}
