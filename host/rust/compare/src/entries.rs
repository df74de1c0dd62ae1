//! Page entries of mappings, compared to the model: the answer and every word lent for them. And
//! what holds of every list, without the model.

use crate::calls::{answer_line, lines, same, Caller, Way};
use crate::library::{self, Listed};
use crate::mappings::broken_rules;
use std::ops::Range;
use waylluqen::{ffi, PageEntries, Shown, Space, View, LIMIT};
use waylluqen_model::entries::entry_count;
use waylluqen_model::random::Random;
use waylluqen_model::{page_entries, Mapping, PageEntry, ENTRY_WORDS, PAGE_SIZES};

/// How many words to lend for a mapping's entries, and at most so many: too few by one or by all,
/// just enough, or more. For a broken one any.
pub fn some_entry_words(random: &mut Random, mapping: &Mapping, most: usize) -> usize {
    let entries = match broken_rules(mapping).contains(&true) {
        true => random.below(most as u64),
        false => entry_count(&PAGE_SIZES, mapping),
    };
    let enough = entries as usize * ENTRY_WORDS;
    let words = match random.below(8) {
        0 => 0,
        1 => random.up_to(enough as u64) as usize,
        2..=3 => enough.saturating_sub(1),
        4..=6 => enough,
        _ => enough + 1 + random.below(9) as usize,
    };
    words.min(most)
}

/// The entries in these words.
pub fn entries_in(words: &[u64]) -> Vec<PageEntry> {
    let (entries, _) = words.as_chunks::<ENTRY_WORDS>();
    let entry = |&[address, offset, size]: &[u64; ENTRY_WORDS]| PageEntry {
        address,
        offset,
        size,
    };
    entries.iter().map(entry).collect()
}

impl Caller {
    /// Lends these words for the entries of the next mapping.
    pub fn lend_entries(&mut self, words: &[u64]) {
        self.entries.put(&mut self.random, words);
    }

    /// The words for entries as the last call left them.
    pub fn entries(&self) -> &[u64] {
        self.entries.words()
    }

    /// Lends so many words, any, and has a mapping's entries listed in one of the ways. Answers
    /// what the model does.
    pub fn compare_entries(&mut self, mapping: &Mapping, words: usize) -> Listed {
        let model = page_entries(mapping, words);
        self.entries.put_any(&mut self.random, words);
        let way = self.random.pick(&[Way::Words, Way::Types]);
        self.list_entries(way, mapping, &model);
        model
    }

    /// Has the entries of a mapping listed in the words that are lent. The model's answer is
    /// `model`.
    pub fn list_entries(&mut self, way: Way, mapping: &Mapping, model: &Listed) {
        self.entries
            .expect(|words| library::write_entries(words, model));
        let words = self.entries.words_mut();
        let given = library::mapping(*mapping);
        let answered = match way {
            Way::Words => same(
                ffi::page_entries(given, words),
                library::listed_words(model),
            ),
            Way::Types => match (waylluqen::page_entries(given, words), model) {
                (Ok(entries), Ok(listed)) => same_entries(entries, listed),
                (Err(refusal), Err(refused)) => same(refusal, library::refusal(*refused)),
                (answer, _) => Err(format!("{answer:x?}")),
            },
        };
        if answered.is_err() || !self.entries.is_as_expected() {
            self.report_entries(mapping, &answer_line(way, answered), model);
        }
    }

    #[cold]
    fn report_entries(&self, mapping: &Mapping, answer: &str, model: &Listed) -> ! {
        let model = match model {
            Ok(entries) => {
                let first = &entries[..entries.len().min(20)];
                format!("{} entries, {first:x?}", entries.len())
            }
            Err(refused) => format!("{refused:?}"),
        };
        let words = self.entries.words();
        panic!(
            "{mapping:x?}\n{answer}\nentries, {} words:\n{}\nmodel {model}",
            words.len(),
            lines(words, ENTRY_WORDS),
        );
    }
}

/// The entries one by one, their number at each step, and nothing behind the last.
fn same_entries(mut entries: PageEntries, expected: &[PageEntry]) -> Result<(), String> {
    for (at, entry) in expected.iter().enumerate() {
        let left = expected.len() - at;
        same(entries.len(), left)?;
        same(entries.size_hint(), (left, Some(left)))?;
        same(entries.next(), Some(library::entry(entry)))?;
    }
    same(entries.len(), 0)?;
    same([entries.next(), entries.next()], [None, None])
}

/// The bytes of a mapping that keeps its rules.
fn bytes_of(mapping: &Mapping) -> Range<u64> {
    mapping.address..mapping.address + mapping.size
}

/// Asserts that a list is one for the mapping: aligned pages of the three sizes, one directly
/// behind the other from its address to its end, that show what it shows at both edges of each.
pub fn assert_covers(mapping: &Mapping, entries: &[PageEntry]) {
    let bytes = bytes_of(mapping);
    let mut covered = bytes.start;
    for entry in entries {
        let &PageEntry {
            address,
            offset,
            size,
        } = entry;
        assert_eq!(address, covered, "{entry:x?} of {mapping:x?}");
        assert!(PAGE_SIZES.contains(&size), "{entry:x?} of {mapping:x?}");
        let is_aligned = address.is_multiple_of(size) && offset.is_multiple_of(size);
        assert!(is_aligned, "{entry:x?} of {mapping:x?}");
        for byte in [0, size - 1] {
            let shown = mapping.offset + (address + byte - mapping.address);
            assert_eq!(offset + byte, shown, "{entry:x?} of {mapping:x?}");
        }
        covered += size;
    }
    assert_eq!(covered, bytes.end, "{mapping:x?}");
}

/// Whether a page of this size that has the address may stand in a list for the mapping.
fn may_have(mapping: &Mapping, size: u64, address: u64) -> bool {
    let (bytes, first) = (bytes_of(mapping), address - address % size);
    bytes.start <= first
        && first + size <= bytes.end
        && (mapping.offset + (first - bytes.start)).is_multiple_of(size)
}

/// Asserts that no list for the mapping is shorter than this one: none of its pages is in a larger
/// one that may stand in a list. Of two pages with a byte in common one has the other, so then every
/// page that may is in one of these, and each of these needs at least one.
pub fn assert_fewest(mapping: &Mapping, entries: &[PageEntry]) {
    for entry in entries {
        let larger = PAGE_SIZES.into_iter().filter(|&size| size > entry.size);
        for size in larger {
            let may = may_have(mapping, size, entry.address);
            assert!(!may, "{entry:x?} of {mapping:x?} is in a page of {size:#x}");
        }
    }
}

/// Asserts that a look-up in a table of this mapping shows what the entry says, at both its edges.
pub fn assert_shown(mapping: &Mapping, entry: &PageEntry) {
    let words = mapping.words();
    let view = View::new(&words, 1);
    for byte in [0, entry.size - 1] {
        let seen = view.lookup(Space::new(0, LIMIT), entry.address + byte);
        let shown = Shown::Object {
            object: mapping.object,
            offset: entry.offset + byte,
        };
        let seen = seen.expect("the mapping is good");
        assert_eq!(seen.shown, shown, "{entry:x?} of {mapping:x?}");
    }
}
