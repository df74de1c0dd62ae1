//! How often old mappings had the keep mark, in which forms, and how often they nearly had it.

use waylluqen_model::bind::KIND_MAP;
use waylluqen_model::{Grant, Mapping, Operation};

#[derive(Debug, Default)]
pub struct Marks {
    /// Unmaps; remaps with a lower rest alone, an upper rest alone, both.
    pub kept: [u64; 4],
    /// Kept with a displacement below zero, zero, above zero.
    pub displacements: [u64; 3],
    /// Kept, with another address than the new mapping's.
    pub elsewhere: u64,
    /// Grants with an old mapping that is not kept between two that are.
    pub around: u64,
    /// Not kept by a map, though alike in: the object; the displacement; the object and the
    /// displacement but for its sign; the object and the sum of offset and address.
    pub missed: [u64; 4],
}

/// The place in `Marks::kept` of an operation with the mark.
fn form(cut: &Operation) -> usize {
    match (cut.lower, cut.upper) {
        (None, None) => 0,
        (Some(_), None) => 1,
        (None, Some(_)) => 2,
        (Some(_), Some(_)) => 3,
    }
}

fn sum(mapping: &Mapping) -> u128 {
    u128::from(mapping.offset) + u128::from(mapping.address)
}

impl Marks {
    /// Counts the operations of a map's grant; an unmap has none with the mark.
    pub fn count(&mut self, grant: &Grant) {
        let Some((last, cuts)) = grant.operations.split_last() else {
            return;
        };
        if last.kind != KIND_MAP {
            return;
        }
        for cut in cuts {
            if cut.keep {
                self.count_kept(cut, &last.named);
            } else {
                self.count_missed(&cut.named, &last.named);
            }
        }
        let runs = cuts.chunk_by(|one, next| one.keep == next.keep);
        let kept_runs = runs.filter(|run| run[0].keep).count();
        self.around += u64::from(kept_runs >= 2);
    }

    fn count_kept(&mut self, cut: &Operation, new: &Mapping) {
        self.kept[form(cut)] += 1;
        let sign = cut.named.displacement().signum() + 1;
        self.displacements[sign as usize] += 1;
        self.elsewhere += u64::from(cut.named.address != new.address);
    }

    fn count_missed(&mut self, old: &Mapping, new: &Mapping) {
        let object = old.object == new.object;
        let alike = [
            object,
            old.displacement() == new.displacement(),
            object && old.displacement() == -new.displacement(),
            object && sum(old) == sum(new),
        ];
        for (times, alike) in self.missed.iter_mut().zip(alike) {
            *times += u64::from(alike);
        }
    }

    /// Each form with its name.
    pub fn forms(&self) -> [(&'static str, &[u64]); 5] {
        [
            ("kept", &self.kept),
            ("kept displacements", &self.displacements),
            ("kept elsewhere", std::slice::from_ref(&self.elsewhere)),
            ("kept around another", std::slice::from_ref(&self.around)),
            ("not kept but alike", &self.missed),
        ]
    }
}
