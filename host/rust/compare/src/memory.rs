//! Lent words as a part of longer memory, in which a call changes what it should and no more.

use std::hint::black_box;
use waylluqen_model::random::Random;
use waylluqen_model::PAGE;

/// How many words on each side of the lent ones are watched.
const BESIDE: usize = 8;

/// Words that are lent, between others, and how the memory should be after the next call.
#[derive(Default)]
pub struct Lent {
    memory: Vec<u64>,
    expected: Vec<u64>,
    start: usize,
    words: usize,
}

impl Lent {
    /// Puts words anywhere, aligned as a word is and no better, with any words beside them.
    pub fn put(&mut self, random: &mut Random, words: &[u64]) {
        self.put_with(random, words.len(), |memory, _| {
            memory.extend_from_slice(words);
        });
    }

    /// The same with any words, this many.
    pub fn put_any(&mut self, random: &mut Random, words: usize) {
        self.put_with(random, words, |memory, random| {
            add_any(memory, random, words);
        });
    }

    fn put_with(
        &mut self,
        random: &mut Random,
        words: usize,
        add: impl FnOnce(&mut Vec<u64>, &mut Random),
    ) {
        self.start = BESIDE + random.below(BESIDE as u64) as usize;
        self.words = words;
        self.memory.clear();
        add_any(&mut self.memory, random, self.start);
        add(&mut self.memory, random);
        add_any(&mut self.memory, random, BESIDE);
    }

    pub fn words(&self) -> &[u64] {
        &self.memory[self.start..self.start + self.words]
    }

    /// The words, to be lent for a call that may write them.
    pub fn words_mut(&mut self) -> &mut [u64] {
        &mut self.memory[self.start..self.start + self.words]
    }

    /// Other words around a table or a list: any, zeros, or a mapping or a range that has the address
    /// or starts at the page behind it. A mapping's first two words are as a range's.
    pub fn stir(&mut self, random: &mut Random, address: u64, each: usize) {
        let first = address / PAGE * PAGE;
        let choice = random.below(4);
        let mut other = |at: usize| match choice {
            0 => random.next_u64(),
            1 => 0,
            2 => [first, PAGE, 9, 0][at % each],
            _ => [first.wrapping_add(PAGE), PAGE, 9, 0][at % each],
        };
        let start = self.start;
        let end = start + self.words;
        for at in start - BESIDE..start {
            self.memory[at] = other(at + BESIDE - start);
        }
        for at in end..end + BESIDE {
            self.memory[at] = other(at - end);
        }
    }

    /// Says, before a call, which of the words it should change, and how.
    pub fn expect(&mut self, change: impl FnOnce(&mut [u64])) {
        self.expected.clone_from(&self.memory);
        change(&mut self.expected[self.start..self.start + self.words]);
    }

    /// Whether the whole memory is as it should be after the call.
    pub fn is_as_expected(&mut self) -> bool {
        // Without this the compiler may take it for granted that lent words are unchanged.
        *black_box(&mut self.memory) == self.expected
    }
}

fn add_any(memory: &mut Vec<u64>, random: &mut Random, words: usize) {
    memory.extend((0..words).map(|_| random.next_u64()));
}
