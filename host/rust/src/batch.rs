//! Why a batch is refused.

use crate::Refusal;
use core::fmt;

/// Why a batch is refused: for itself, or for one of its requests. Either way none of them is
/// carried out, and no word of the table has changed.
///
/// - For itself it is refused before any request is looked at, and no lent word has changed: with
///   the first of [`BadRecordLength`](Refusal::BadRecordLength), [`BadSpace`](Refusal::BadSpace),
///   [`BadTableLength`](Refusal::BadTableLength), [`ShortOperations`](Refusal::ShortOperations),
///   [`BadWorkLength`](Refusal::BadWorkLength), [`BadCount`](Refusal::BadCount),
///   [`BadMapping`](Refusal::BadMapping), [`StaleWords`](Refusal::StaleWords) and
///   [`BadRanges`](Refusal::BadRanges) that applies.
/// - For the first of its requests that is refused: with the first of [`BadOp`](Refusal::BadOp),
///   [`BadFlags`](Refusal::BadFlags), [`Unaligned`](Refusal::Unaligned),
///   [`OutsideSpace`](Refusal::OutsideSpace), [`Reserved`](Refusal::Reserved),
///   [`BadObject`](Refusal::BadObject), [`BadOffset`](Refusal::BadOffset),
///   [`NoRoom`](Refusal::NoRoom) and [`ShortOutput`](Refusal::ShortOutput) that applies. All words
///   to work in and for operations are 0 then.
///
/// ```
/// use waylluqen::{batch_list_words, table_words, Refusal, Request, Space, Table};
///
/// let space = Space::new(0, 0x1_0000);
/// let (mut words, mut work) = ([0; table_words(2)], [0; table_words(2)]);
/// let mut list = [0; batch_list_words(2, 2)];
/// let mut table = Table::empty(&mut words);
/// let requests = [Request::map(0, 0x1000, 7, 0), Request::unmap(0, 0x800)];
///
/// let refused = table.bind_batch(space, requests, &mut work, &mut list).unwrap_err();
/// assert_eq!((refused.request, refused.refusal), (Some(1), Refusal::Unaligned));
/// let text = "request 1: an address, size or offset is not a multiple of a page";
/// assert_eq!(refused.to_string(), text);
///
/// let refused = table.bind_batch(space, requests, &mut work[1..], &mut list).unwrap_err();
/// assert_eq!((refused.request, refused.refusal), (None, Refusal::BadWorkLength));
/// assert_eq!(refused.to_string(), "the work table is not as long as the table");
/// ```
#[derive(Clone, Copy, Debug, PartialEq, Eq, Hash)]
pub struct BatchRefusal {
    /// The place of the request that is refused, from 0; none where the batch itself is.
    pub request: Option<usize>,
    /// Why.
    pub refusal: Refusal,
}

impl BatchRefusal {
    /// The refusal that an answer's first two words are, if they are one.
    #[inline]
    pub(crate) fn check(number: u64, place: u64) -> Result<(), BatchRefusal> {
        Refusal::check(number, place).map_err(|refusal| BatchRefusal::of(refusal, place))
    }

    /// By the number: the place of an answer is that of a request, or of a mapping, or 0.
    #[cold]
    fn of(refusal: Refusal, place: u64) -> BatchRefusal {
        let in_turn = matches!(
            refusal,
            Refusal::BadOp
                | Refusal::BadFlags
                | Refusal::Unaligned
                | Refusal::OutsideSpace
                | Refusal::Reserved
                | Refusal::BadObject
                | Refusal::BadOffset
                | Refusal::NoRoom
                | Refusal::ShortOutput
        );
        BatchRefusal {
            request: in_turn.then_some(place as usize),
            refusal,
        }
    }
}

impl fmt::Display for BatchRefusal {
    fn fmt(&self, f: &mut fmt::Formatter<'_>) -> fmt::Result {
        match (self.request, self.refusal) {
            (Some(place), refusal) => write!(f, "request {place}: {refusal}"),
            (None, Refusal::BadRecordLength) => {
                f.write_str("the batch is not 0 to 64 records of 40 bytes")
            }
            (None, refusal) => refusal.fmt(f),
        }
    }
}

impl core::error::Error for BatchRefusal {}

/// Why, without the place.
///
/// ```
/// use waylluqen::{BatchRefusal, Refusal};
///
/// let refused = BatchRefusal { request: Some(3), refusal: Refusal::NoRoom };
/// assert_eq!(Refusal::from(refused), Refusal::NoRoom);
/// ```
impl From<BatchRefusal> for Refusal {
    fn from(refused: BatchRefusal) -> Refusal {
        refused.refusal
    }
}

#[cfg(test)]
mod tests;
