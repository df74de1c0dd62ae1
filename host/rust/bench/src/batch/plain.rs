//! Batches in plain safe Rust, without proofs, on the same lent words: the table is checked once, and
//! only a clock knows how requests are best taken back.

use super::rules::{check, clear, take_turns, Checked};
use super::turns::{ByHalves, Find, Nearby, Turns};
use super::{Batched, Way};
use crate::manager::Grant;
use std::marker::PhantomData;
use waylluqen::{Space, MAPPING_WORDS};
use waylluqen_compare::tables::Table;

/// Copies the table into the words to work in, and puts it back where a request is refused.
pub struct Copied;

/// Changes a copy in the words to work in, and puts it into the table where all are granted.
pub struct Worked;

/// Copies nothing: takes the requests back by their operations where one is refused.
pub type Undone = InPlace<Nearby>;

/// As `Undone`, and does not look for a request near the last one.
pub type Halved = InPlace<ByHalves>;

pub struct InPlace<F>(PhantomData<F>);

/// The answer where all are granted.
fn grant(turns: &Turns) -> Grant {
    Grant {
        operations: turns.used as u64,
        count: turns.count as u64,
    }
}

impl Way for Copied {
    fn bind_batch(
        space: Space,
        lent: &mut Table,
        bytes: &[u8],
        work: &mut [u64],
        list: &mut [u64],
    ) -> Batched {
        let Checked {
            bounds,
            count,
            records,
        } = check(space, lent, bytes, work, list)?;
        let used = count * MAPPING_WORDS;
        work[..used].copy_from_slice(&lent.words[..used]);
        let mut turns = Turns::new(&mut lent.words, count, list);
        let taken = take_turns(records, |record| turns.take::<Nearby>(&bounds, record));
        let grant = grant(&turns);
        if taken.is_err() {
            turns.table.as_flattened_mut()[..used].copy_from_slice(&work[..used]);
            turns.count = count;
        }
        turns.clear_free();
        if taken.is_err() {
            list.fill(0);
        }
        work[..used].fill(0);
        clear(&mut work[used..]);
        taken.map(|()| grant)
    }
}

impl Way for Worked {
    fn bind_batch(
        space: Space,
        lent: &mut Table,
        bytes: &[u8],
        work: &mut [u64],
        list: &mut [u64],
    ) -> Batched {
        let Checked {
            bounds,
            count,
            records,
        } = check(space, lent, bytes, work, list)?;
        let used = count * MAPPING_WORDS;
        work[..used].copy_from_slice(&lent.words[..used]);
        let mut turns = Turns::new(work, count, list);
        let taken = take_turns(records, |record| turns.take::<Nearby>(&bounds, record));
        let grant = grant(&turns);
        let (after, most) = (turns.count * MAPPING_WORDS, turns.most * MAPPING_WORDS);
        if taken.is_ok() {
            lent.words[..after].copy_from_slice(&work[..after]);
            lent.words[after..most].fill(0);
        } else {
            list.fill(0);
        }
        work[..most].fill(0);
        clear(&mut work[most..]);
        taken.map(|()| grant)
    }
}

impl<F: Find> Way for InPlace<F> {
    fn bind_batch(
        space: Space,
        lent: &mut Table,
        bytes: &[u8],
        work: &mut [u64],
        list: &mut [u64],
    ) -> Batched {
        let Checked {
            bounds,
            count,
            records,
        } = check(space, lent, bytes, work, list)?;
        let mut turns = Turns::new(&mut lent.words, count, list);
        let taken = take_turns(records, |record| turns.take::<F>(&bounds, record));
        if taken.is_err() {
            turns.take_back();
        }
        turns.clear_free();
        let grant = grant(&turns);
        if taken.is_err() {
            list.fill(0);
        }
        clear(work);
        taken.map(|()| grant)
    }
}
