//! A request in pieces: where it is cut, the pieces and the order in which they are asked for, and
//! what all of them leave.

use crate::tables::Table;
use waylluqen_model::random::Random;
use waylluqen_model::{Mapping, Record, Request};
use waylluqen_model::{MAP, MAPPING_WORDS, MOST_REQUESTS, PAGE};

/// What is asked for: numbers with flags, and the pad that a record has besides.
#[derive(Clone, Copy, Debug, PartialEq)]
pub struct Asked {
    pub request: Request,
    pub pad: u32,
}

impl Asked {
    /// The record of it, if a record's fields can hold it.
    pub fn record(&self) -> Option<Record> {
        Some(Record {
            op: self.request.op.try_into().ok()?,
            flags: self.request.flags.try_into().ok()?,
            handle: self.request.object.try_into().ok()?,
            pad: self.pad,
            addr: self.request.address,
            bo_offset: self.request.offset,
            range: self.request.size,
        })
    }

    /// The piece `[start, end)`, if 64 bits hold its numbers.
    fn piece(&self, start: u128, end: u128) -> Option<Asked> {
        let moved = start - u128::from(self.request.address);
        let offset = match self.request.op {
            MAP => u128::from(self.request.offset) + moved,
            _ => u128::from(self.request.offset),
        };
        let request = Request {
            address: start.try_into().ok()?,
            size: (end - start).try_into().ok()?,
            offset: offset.try_into().ok()?,
            ..self.request
        };
        Some(Asked { request, ..*self })
    }
}

/// Where to cut: multiples of a page strictly inside the range, ascending, up to five.
pub fn cuts(random: &mut Random, request: &Request) -> Vec<u128> {
    let (start, end) = (request.extent().start, request.extent().end);
    let page = u128::from(PAGE);
    let first = start / page + 1;
    let behind = end.div_ceil(page);
    if behind <= first {
        return Vec::new();
    }
    let most = u64::try_from(behind - first - 1).unwrap_or(u64::MAX);
    let wished = random.below(6);
    let mut cuts: Vec<u128> = (0..wished)
        .map(|_| match random.below(2) {
            0 => random.up_to(most),
            _ => random.up_to(most.min(12)),
        })
        .map(|skipped| (first + u128::from(skipped)) * page)
        .collect();
    cuts.sort_unstable();
    cuts.dedup();
    cuts
}

/// The pieces between the cuts, ascending. One that can't be asked is `None`.
pub fn pieces(asked: &Asked, cuts: &[u128]) -> Vec<Option<Asked>> {
    let extent = asked.request.extent();
    let mut edges = vec![extent.start];
    edges.extend(cuts);
    edges.push(extent.end);
    let piece = |edge: &[u128]| asked.piece(edge[0], edge[1]);
    edges.windows(2).map(piece).collect()
}

/// The places of pieces in any order: perhaps one left out, some repeated, perhaps all of them
/// once more, so that one for which there was no room is tried again.
pub fn order(random: &mut Random, pieces: usize) -> Vec<usize> {
    let mut order: Vec<usize> = (0..pieces).collect();
    if random.once_in(8) {
        order.remove(random.below(pieces as u64) as usize);
    }
    for _ in 0..random.below(3) {
        order.push(random.below(pieces as u64) as usize);
    }
    shuffle(random, &mut order);
    if random.once_in(2) {
        let mut again: Vec<usize> = (0..pieces).collect();
        shuffle(random, &mut again);
        order.extend(again);
    }
    order
}

fn shuffle(random: &mut Random, list: &mut [usize]) {
    for last in (1..list.len()).rev() {
        list.swap(last, random.below(last as u64 + 1) as usize);
    }
}

/// The words after the uncut map, with the pieces in place of its new mapping, zeros behind.
pub fn with_pieces(uncut: &Table, asked: &Asked, pieces: &[Asked]) -> Vec<u64> {
    let used = &uncut.words[..uncut.count as usize * MAPPING_WORDS];
    let mut mappings: Vec<&[u64]> = used.chunks(MAPPING_WORDS).collect();
    let new = mapping_words(asked);
    let place = mappings.iter().position(|words| **words == new);
    let place = place.expect("a granted map's own mapping is in the table");
    let pieces: Vec<[u64; 4]> = pieces.iter().map(mapping_words).collect();
    mappings.splice(place..=place, pieces.iter().map(|words| &words[..]));
    let mut words = mappings.concat();
    words.resize(uncut.words.len(), 0);
    words
}

fn mapping_words(asked: &Asked) -> [u64; MAPPING_WORDS] {
    let Request {
        address,
        size,
        object,
        offset,
        ..
    } = asked.request;
    let mapping = Mapping {
        address,
        size,
        object,
        offset,
    };
    mapping.words()
}

/// One call of a series: for a piece by itself, or for pieces in a batch.
pub enum Step {
    Single(usize),
    Batch(Vec<usize>),
}

/// How many pieces are in a batch: few, now and then none, and rarely more than there may be.
fn batch_length(random: &mut Random) -> usize {
    match random.below(64) {
        0 => MOST_REQUESTS - 2 + random.below(4) as usize,
        1..=3 => 0,
        _ => 1 + random.below(6) as usize,
    }
}

/// The same order in calls: each piece by itself, all in batches, or both. In a long batch they come
/// again and again.
pub fn steps(random: &mut Random, order: &[usize]) -> Vec<Step> {
    let batches = random.pick(&[0, 1, 2]);
    let mut steps = Vec::new();
    let mut left = order;
    while let Some((&first, others)) = left.split_first() {
        if random.below(2) >= batches {
            steps.push(Step::Single(first));
            left = others;
            continue;
        }
        let length = batch_length(random);
        let places = left.iter().copied().cycle();
        let places = match length > left.len() && length < 8 {
            true => left.to_vec(),
            false => places.take(length).collect(),
        };
        left = &left[places.len().min(left.len())..];
        steps.push(Step::Batch(places));
    }
    steps
}
