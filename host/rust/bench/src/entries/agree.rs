//! All that list page entries must give the model's answers and leave the model's words, also where
//! a mapping is broken or the words are too few.

use super::line::modelled;
use super::{contenders, lines, Line};
use crate::timed::Timed;
use waylluqen_compare::entries::some_entry_words;
use waylluqen_compare::library::{self, ByNumber, Listed};
use waylluqen_compare::mappings::{disturb_mapping, huge_mapping, near_mapping};
use waylluqen_model::answer::{BAD_MAPPING, SHORT_OUTPUT};
use waylluqen_model::random::Random;
use waylluqen_model::{page_entries, Mapping, ENTRY_WORDS};

const RANDOM_MAPPINGS: u64 = 6000;
const MOST_WORDS: usize = 20_000;
const SEED: u64 = 9;

/// Holds each contender to the model, with so many words.
fn compare(mapping: &Mapping, words: usize) -> Listed {
    let model = page_entries(mapping, words);
    let before = vec![SEED; words];
    let mut after = before.clone();
    library::write_entries(&mut after, &model);
    let answer = match &model {
        Ok(entries) => Ok(entries.len()),
        Err(refused) => Err(library::refusal(*refused)),
    };
    for contender in contenders() {
        let name = contender.name;
        let list = (contender.begin)(&());
        let mut words = before.clone();
        let listed = list(library::mapping(*mapping), &mut words);
        assert_eq!(listed, answer, "{name}, {mapping:x?}");
        assert!(words == after, "{name}'s words, {mapping:x?}");
    }
    model
}

/// With the words that are lent to the line, and with just enough and one too few.
fn compare_timed(line: &Line) {
    let lent = line.lent().len();
    for mapping in &line.mappings {
        let mapping = modelled(mapping);
        match compare(&mapping, lent) {
            Ok(entries) => {
                assert!(line.fits, "{} is refused", line.what);
                let enough = entries.len() * ENTRY_WORDS;
                compare(&mapping, enough).expect("enough");
                compare(&mapping, enough - 1).expect_err("one too few");
            }
            Err(refused) => assert!(!line.fits, "{}: {refused:?}", line.what),
        }
    }
}

fn compare_random(random: &mut Random) -> Listed {
    let mut mapping = match random.once_in(8) {
        true => huge_mapping(random),
        false => near_mapping(random),
    };
    if random.once_in(4) {
        disturb_mapping(random, &mut mapping);
    }
    let words = some_entry_words(random, &mapping, MOST_WORDS);
    compare(&mapping, words)
}

/// Panics where an answer or a word is another than the model's.
pub fn assert_equal() {
    lines().iter().for_each(compare_timed);
    let mut random = Random::new(SEED);
    let (mut listed, mut refused) = (0, ByNumber::default());
    for _ in 0..RANDOM_MAPPINGS {
        match compare_random(&mut random) {
            Ok(_) => listed += 1,
            Err(by) => refused[by.number as usize] += 1,
        }
    }
    assert!(listed >= RANDOM_MAPPINGS / 6, "only {listed} listed");
    for number in [BAD_MAPPING, SHORT_OUTPUT] {
        let times = refused[number as usize];
        assert!(times >= 500, "{number} only {times} times");
    }
}

#[test]
fn equal_answers_and_words() {
    assert_equal();
}
