//! A walk over a range, one look-up a run.

use crate::{Refusal, Shown, Space, View};
use core::iter::FusedIterator;
use core::ops::Range;

/// A part of a range that goes on in the same way: what the range has of one mapping, or of what is
/// sparse or shows nothing up to the next mapping or the next edge of a sparse range.
///
/// ```
/// use waylluqen::{Run, Shown, Space, View};
///
/// let view = View::new(&[0x1000, 0x4000, 7, 0], 1);
/// let run = view.runs(Space::new(0, 0x1_0000), 0x2000..0x4000).next().unwrap()?;
/// let shown = Shown::Object { object: 7, offset: 0x1000 };
/// assert_eq!(run, Run { address: 0x2000, bytes: 0x2000, shown });
/// # Ok::<(), waylluqen::Refusal>(())
/// ```
#[derive(Clone, Copy, Debug, PartialEq, Eq, Hash)]
pub struct Run {
    /// The first address.
    pub address: u64,
    /// How many bytes; at least 1.
    pub bytes: u64,
    /// What the first address shows; each byte behind it shows the next byte of the object.
    pub shown: Shown,
}

/// The runs of a range in ascending order, one behind the other; [`View::runs`] gives them.
///
/// Each run is one look-up, which checks the table and the sparse ranges. One that is refused is the
/// last.
///
/// ```
/// use waylluqen::{Shown, Space, View};
///
/// /// How many bytes of a space are mapped.
/// fn mapped(view: View<'_>, space: Space) -> Result<u64, waylluqen::Refusal> {
///     let mut bytes = 0;
///     for run in view.runs(space, space.start..space.start + space.size) {
///         let run = run?;
///         match run.shown {
///             Shown::Object { .. } => bytes += run.bytes,
///             Shown::Sparse | Shown::Nothing => {}
///         }
///     }
///     Ok(bytes)
/// }
///
/// let view = View::new(&[0x1000, 0x2000, 7, 0, 0x8000, 0x1000, 8, 0], 2);
/// assert_eq!(mapped(view, Space::new(0, 0x1_0000)), Ok(0x3000));
/// ```
#[derive(Clone, Debug)]
#[must_use = "nothing is looked up until these are walked over"]
pub struct Runs<'a> {
    view: View<'a>,
    space: Space,
    left: Range<u64>,
}

impl<'a> Runs<'a> {
    #[inline]
    pub(crate) const fn new(view: View<'a>, space: Space, range: Range<u64>) -> Runs<'a> {
        Runs {
            view,
            space,
            left: range,
        }
    }
}

impl Iterator for Runs<'_> {
    type Item = Result<Run, Refusal>;

    fn next(&mut self) -> Option<Result<Run, Refusal>> {
        if self.left.is_empty() {
            return None;
        }
        let (address, end) = (self.left.start, self.left.end);
        // Nothing is left behind a refusal, and behind the space's end.
        self.left.start = end;
        let seen = match self.view.lookup(self.space, address) {
            Ok(seen) => seen,
            Err(refusal) => return Some(Err(refusal)),
        };
        if seen.bytes == 0 {
            return None;
        }
        let bytes = seen.bytes.min(end - address);
        self.left.start = address + bytes;
        Some(Ok(Run {
            address,
            bytes,
            shown: seen.shown,
        }))
    }
}

impl FusedIterator for Runs<'_> {}

#[cfg(test)]
mod tests;
