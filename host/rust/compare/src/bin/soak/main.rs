//! Compares random calls of the library to the model for as long as is wished: `host/soak`.
//!
//! A run is made of rounds, and everything in a round depends on its seed alone, so that a run that
//! starts with the seed of a round that failed fails at once.

mod c_side;
mod call;
mod round;
mod tally;

use c_side::CSide;
use std::env;
use std::io::{self, Write};
use std::panic::{self, AssertUnwindSafe};
use std::process::ExitCode;
use std::time::{Duration, Instant, SystemTime, UNIX_EPOCH};
use tally::Tally;
use waylluqen_compare::calls::{Caller, Way};
use waylluqen_model::random::Random;

/// What a run is told: where the C program is, how long it goes on, and its first seed.
struct Told {
    program: String,
    time: Duration,
    seed: u64,
}

/// `None` where the arguments are not as they should be.
fn told() -> Option<Told> {
    let mut arguments = env::args().skip(1);
    let program = arguments.next()?;
    let seconds: u64 = arguments.next()?.parse().ok()?;
    let seed = match arguments.next() {
        Some(seed) => seed.parse().ok()?,
        None => seed_of_clock(),
    };
    let good = seconds > 0 && arguments.next().is_none();
    good.then_some(Told {
        program,
        time: Duration::from_secs(seconds),
        seed,
    })
}

/// Microseconds, so that two runs one after the other have no round in common.
fn seed_of_clock() -> u64 {
    let now = SystemTime::now().duration_since(UNIX_EPOCH);
    now.expect("it is after 1970").as_micros() as u64
}

/// Makes the calls of a round in each of the three ways. From C first: there a call that ends the
/// program or never comes back is noticed.
fn run_round(seed: u64, c_side: &mut CSide, tally: &mut Tally) {
    let mut random = Random::new(seed);
    let calls = round::calls(&mut random);
    c_side.compare(&calls);
    for way in [Way::Words, Way::Types] {
        let mut caller = Caller::new(random.next_u64());
        for call in &calls {
            call.compare(way, &mut caller);
        }
    }
    tally.count(&calls);
}

/// Whether this came to its end; what differs has been printed if not.
fn passes(round: impl FnOnce()) -> bool {
    panic::catch_unwind(AssertUnwindSafe(round)).is_ok()
}

/// Answers the seed of a round that failed, if there is one.
fn run(told: &Told, mut c_side: CSide, tally: &mut Tally) -> Result<(), u64> {
    let start = Instant::now();
    let mut seed = told.seed;
    while passes(|| run_round(seed, &mut c_side, tally)) {
        if start.elapsed() >= told.time {
            let ends = passes(|| c_side.end());
            return if ends { Ok(()) } else { Err(seed) };
        }
        seed = seed.wrapping_add(1);
    }
    Err(seed)
}

/// Prints a line at once. Nobody need read it: `println!` would panic then.
fn say(line: &str) {
    let mut out = io::stdout().lock();
    writeln!(out, "{line}").and_then(|()| out.flush()).ok();
}

fn main() -> ExitCode {
    let Some(told) = told() else {
        eprintln!("usage: host/soak SECONDS [SEED]");
        return ExitCode::from(2);
    };
    say(&format!("host/soak: seed {}", told.seed));
    let c_side = match CSide::start(&told.program) {
        Ok(c_side) => c_side,
        Err(error) => {
            eprintln!("host/soak: {}: {error}", told.program);
            return ExitCode::FAILURE;
        }
    };
    panic::set_hook(Box::new(|difference| eprintln!("host/soak: {difference}")));
    let mut tally = Tally::default();
    if let Err(seed) = run(&told, c_side, &mut tally) {
        eprintln!("host/soak: failed; `host/soak 1 {seed}` repeats it");
        return ExitCode::FAILURE;
    }
    say(&tally.summary(told.seed));
    ExitCode::SUCCESS
}
