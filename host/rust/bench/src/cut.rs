//! What a request makes of mappings, in plain safe Rust.

use crate::rules::Mapping;
use waylluqen::{Request, MAPPING_WORDS, OPERATION_WORDS};

/// Kind, keep, a mapping, its lower and its upper rest.
pub type Operation = [u64; OPERATION_WORDS];

pub const MAP: u64 = 0;
const REMAP: u64 = 1;
const UNMAP: u64 = 2;

/// What is left of a mapping below the range, if anything is.
pub fn lower_rest(request: &Request, old: &Mapping) -> Option<Mapping> {
    let &[address, _, object, offset] = old;
    (address < request.address).then(|| [address, request.address - address, object, offset])
}

/// What is left of it above the range, which ends at `end`.
pub fn upper_rest(end: u64, old: &Mapping) -> Option<Mapping> {
    let &[address, size, object, offset] = old;
    let old_end = address + size;
    (end < old_end).then(|| [end, old_end - end, object, offset + (end - address)])
}

pub fn new_mapping(request: &Request) -> Option<Mapping> {
    let &Request {
        op,
        address,
        size,
        object,
        offset,
        ..
    } = request;
    (op == Request::MAP).then_some([address, size, object, offset])
}

/// The words of an operation; an absent rest is zeros.
fn operation(
    kind: u64,
    keep: bool,
    named: &Mapping,
    lower: Option<Mapping>,
    upper: Option<Mapping>,
) -> Operation {
    let [a, b, c, d] = *named;
    let [e, f, g, h] = lower.unwrap_or([0; MAPPING_WORDS]);
    let [i, j, k, l] = upper.unwrap_or([0; MAPPING_WORDS]);
    [kind, u64::from(keep), a, b, c, d, e, f, g, h, i, j, k, l]
}

/// Whether a mapping that is hit shows there what the request asks for.
fn keeps(request: &Request, &[address, _, object, offset]: &Mapping) -> bool {
    // Offset less address is the same, asked by sums, which are at most 2^49.
    request.op == Request::MAP
        && object == request.object
        && offset + request.address == request.offset + address
}

/// The operation of a mapping that is hit as a whole.
pub fn unmap_operation(request: &Request, old: &Mapping) -> Operation {
    operation(UNMAP, keeps(request, old), old, None, None)
}

/// The operation of a mapping that is hit.
pub fn cut(request: &Request, end: u64, old: &Mapping) -> Operation {
    let keep = keeps(request, old);
    let (lower, upper) = (lower_rest(request, old), upper_rest(end, old));
    let whole = lower.is_none() && upper.is_none();
    let kind = if whole { UNMAP } else { REMAP };
    operation(kind, keep, old, lower, upper)
}

pub fn map_operation(new: &Mapping) -> Operation {
    operation(MAP, false, new, None, None)
}
