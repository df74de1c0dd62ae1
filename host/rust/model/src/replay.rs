//! Carries written operations out on a table's mappings, as a driver would.

use crate::bind::{KIND_MAP, KIND_REMAP, KIND_UNMAP, OPERATION_WORDS};
use crate::table::mapping_at;
use crate::{Mapping, MAPPING_WORDS};
use alloc::vec::Vec;

/// Takes a mapping out; `None` if it is not there.
fn take_out(mappings: &mut Vec<Mapping>, old: &Mapping) -> Option<()> {
    let place = mappings.iter().position(|mapping| mapping == old)?;
    mappings.remove(place);
    Some(())
}

/// Puts a mapping in; `None` if its room is not free.
fn put_in(mappings: &mut Vec<Mapping>, new: &Mapping) -> Option<()> {
    let extent = new.extent();
    let in_the_way = |mapping: &Mapping| mapping.extent().shares_byte_with(&extent);
    if mappings.iter().any(in_the_way) {
        return None;
    }
    let place = mappings.partition_point(|mapping| mapping.address < new.address);
    mappings.insert(place, *new);
    Some(())
}

/// Whether `rest` is a part of `old` that shows what it showed there.
fn is_part_of(rest: &Mapping, old: &Mapping) -> bool {
    let moved = rest.address.checked_sub(old.address);
    rest.size != 0
        && rest.extent().is_inside(&old.extent())
        && rest.object == old.object
        && moved.and_then(|moved| old.offset.checked_add(moved)) == Some(rest.offset)
}

/// The rests that the words of a remap name: one or two, each a part of the old mapping.
fn rests(words: &[u64], old: &Mapping) -> Option<Vec<Mapping>> {
    let named = [mapping_at(words, 0), mapping_at(words, 1)];
    let present = |rest: &Mapping| rest.words() != [0; MAPPING_WORDS];
    let rests: Vec<Mapping> = named.into_iter().filter(present).collect();
    let good = !rests.is_empty() && rests.iter().all(|rest| is_part_of(rest, old));
    good.then_some(rests)
}

fn step(mappings: &mut Vec<Mapping>, words: &[u64]) -> Option<()> {
    let named = mapping_at(&words[2..], 0);
    match words[0] {
        KIND_MAP => put_in(mappings, &named),
        KIND_UNMAP => take_out(mappings, &named),
        KIND_REMAP => {
            let rests = rests(&words[6..], &named)?;
            take_out(mappings, &named)?;
            rests.iter().try_for_each(|rest| put_in(mappings, rest))
        }
        _ => None,
    }
}

/// The mappings after all operations in `words`; `None` if one of them can't be carried out.
pub fn replay(mappings: &[Mapping], words: &[u64]) -> Option<Vec<Mapping>> {
    let mut after = mappings.to_vec();
    for operation in words.chunks(OPERATION_WORDS) {
        step(&mut after, operation)?;
    }
    Some(after)
}
