//! The model's look-ups in tables that were worked out by hand, without sparse ranges.

use waylluqen_model::{List, Refused, Seen, Shown, Space, PAGE};

const LIMIT: u64 = 1 << 48;
const LAST_PAGE: u64 = u64::MAX - PAGE + 1;

/// Address, size, object, offset.
type Words = [u64; 4];

/// `[0x10_0000, 0x20_0000)` with `[0x14_0000, 0x18_0000)` reserved.
const COMMON: Space = Space {
    start: 0x10_0000,
    size: 0x10_0000,
    reserved_start: 0x14_0000,
    reserved_size: 0x4_0000,
};

/// All that a space may have, and nothing reserved.
const WIDEST: Space = Space {
    start: 0,
    size: LIMIT,
    reserved_start: 0,
    reserved_size: 0,
};

/// Two that touch each other, one on each side of the reservation, and the space's last page.
const FIVE: [Words; 5] = [
    [0x10_0000, 0x2000, 7, 0x3000],
    [0x10_2000, 0x1000, 8, 0],
    [0x13_f000, 0x1000, 0xffff_ffff, 0x1000],
    [0x18_0000, 0x1000, 1, 0x5000],
    [0x1f_f000, 0x1000, 9, LIMIT - PAGE],
];

type Answer = Result<Seen, Refused>;

/// A byte of an object, which goes on for so many bytes.
fn shows(object: u64, offset: u64, bytes: u64) -> Answer {
    let shown = Shown::Object { object, offset };
    Ok(Seen { shown, bytes })
}

fn nothing(bytes: u64) -> Answer {
    let shown = Shown::Nothing;
    Ok(Seen { shown, bytes })
}

const OUTSIDE: Answer = Ok(Seen {
    shown: Shown::Nothing,
    bytes: 0,
});

fn refused(number: u32) -> Answer {
    Err(Refused { number, place: 0 })
}

fn bad_mapping(place: u64) -> Answer {
    Err(Refused { number: 5, place })
}

fn lookup(space: &Space, table: &[u64], count: u64, address: u64) -> Answer {
    waylluqen_model::lookup(space, &List::NONE, table, count, address)
}

/// The answer in a table that is full of these mappings.
fn look(space: &Space, mappings: &[Words], address: u64) -> Answer {
    lookup(space, &mappings.concat(), mappings.len() as u64, address)
}

/// The answer in the common space to a table of one mapping, at its address.
fn alone(address: u64, size: u64, object: u64, offset: u64) -> Answer {
    look(&COMMON, &[[address, size, object, offset]], address)
}

/// The answer in the common space to a table of two mappings of one object, at its start.
fn pair(first: [u64; 2], second: [u64; 2]) -> Answer {
    let mappings = [[first[0], first[1], 7, 0], [second[0], second[1], 7, 0]];
    look(&COMMON, &mappings, 0x10_0000)
}

#[test]
fn bytes_of_a_mapping() {
    assert_eq!(look(&COMMON, &FIVE, 0x10_0000), shows(7, 0x3000, 0x2000));
    assert_eq!(look(&COMMON, &FIVE, 0x10_0001), shows(7, 0x3001, 0x1fff));
    assert_eq!(look(&COMMON, &FIVE, 0x10_0fff), shows(7, 0x3fff, 0x1001));
    assert_eq!(look(&COMMON, &FIVE, 0x10_1000), shows(7, 0x4000, 0x1000));
    assert_eq!(look(&COMMON, &FIVE, 0x10_1fff), shows(7, 0x4fff, 1));
    let last = LIMIT - PAGE;
    assert_eq!(look(&COMMON, &FIVE, 0x1f_f000), shows(9, last, 0x1000));
    assert_eq!(look(&COMMON, &FIVE, 0x1f_ffff), shows(9, LIMIT - 1, 1));
}

#[test]
fn neighbours_that_touch() {
    assert_eq!(look(&COMMON, &FIVE, 0x10_1fff), shows(7, 0x4fff, 1));
    assert_eq!(look(&COMMON, &FIVE, 0x10_2000), shows(8, 0, 0x1000));
    assert_eq!(look(&COMMON, &FIVE, 0x10_2fff), shows(8, 0xfff, 1));
    assert_eq!(look(&COMMON, &FIVE, 0x10_3000), nothing(0x3_c000));
}

/// One mapping's part ends where the next one's starts, and they are two all the same.
#[test]
fn neighbours_that_go_on() {
    let two = [
        [0x10_0000, 0x2000, 7, 0x3000],
        [0x10_2000, 0x1000, 7, 0x5000],
    ];
    assert_eq!(look(&COMMON, &two, 0x10_0000), shows(7, 0x3000, 0x2000));
    assert_eq!(look(&COMMON, &two, 0x10_1fff), shows(7, 0x4fff, 1));
    assert_eq!(look(&COMMON, &two, 0x10_2000), shows(7, 0x5000, 0x1000));
    // From one page to the next, as if nothing were between them.
    let apart = [[0x10_0000, 0x1000, 7, 0], [0x10_2000, 0x1000, 7, 0x2000]];
    assert_eq!(look(&COMMON, &apart, 0x10_0800), shows(7, 0x800, 0x800));
    assert_eq!(look(&COMMON, &apart, 0x10_1000), nothing(0x1000));
    assert_eq!(look(&COMMON, &apart, 0x10_1fff), nothing(1));
}

#[test]
fn beside_and_in_the_reservation() {
    let highest = 0xffff_ffff;
    assert_eq!(look(&COMMON, &FIVE, 0x13_efff), nothing(1));
    assert_eq!(
        look(&COMMON, &FIVE, 0x13_f000),
        shows(highest, 0x1000, PAGE)
    );
    assert_eq!(look(&COMMON, &FIVE, 0x13_ffff), shows(highest, 0x1fff, 1));
    assert_eq!(look(&COMMON, &FIVE, 0x14_0000), nothing(0x4_0000));
    assert_eq!(look(&COMMON, &FIVE, 0x17_ffff), nothing(1));
    assert_eq!(look(&COMMON, &FIVE, 0x18_0000), shows(1, 0x5000, 0x1000));
}

/// The reservation shows nothing, as what is before it and behind it does.
#[test]
fn nothing_goes_on_over_the_reservation() {
    let ends = [FIVE[0], FIVE[4]];
    assert_eq!(look(&COMMON, &ends, 0x10_2000), nothing(0xf_d000));
    assert_eq!(look(&COMMON, &ends, 0x13_ffff), nothing(0xb_f001));
    assert_eq!(look(&COMMON, &ends, 0x14_0000), nothing(0xb_f000));
    assert_eq!(look(&COMMON, &ends, 0x17_ffff), nothing(0x7_f001));
    assert_eq!(look(&COMMON, &ends, 0x18_0000), nothing(0x7_f000));
    // A mapping beside it ends with itself.
    let beside = [FIVE[2]];
    assert_eq!(
        look(&COMMON, &beside, 0x13_ffff),
        shows(FIVE[2][2], 0x1fff, 1)
    );
    assert_eq!(look(&COMMON, &beside, 0x14_0000), nothing(0xc_0000));
}

/// Without one behind it, nothing goes on to the space's end; before the first, to that one.
#[test]
fn nothing_before_and_behind_all() {
    let second = [FIVE[1]];
    assert_eq!(look(&COMMON, &second, 0x10_0000), nothing(0x2000));
    assert_eq!(look(&COMMON, &second, 0x10_1fff), nothing(1));
    assert_eq!(look(&COMMON, &second, 0x10_3000), nothing(0xf_d000));
    assert_eq!(look(&COMMON, &second, 0x1f_ffff), nothing(1));
    assert_eq!(look(&COMMON, &second, 0x20_0000), OUTSIDE);
}

#[test]
fn outside_the_space() {
    assert_eq!(look(&COMMON, &FIVE, 0), OUTSIDE);
    assert_eq!(look(&COMMON, &FIVE, 0xf_ffff), OUTSIDE);
    assert_eq!(look(&COMMON, &FIVE, 0x20_0000), OUTSIDE);
    assert_eq!(look(&COMMON, &FIVE, 0x20_0001), OUTSIDE);
    assert_eq!(look(&COMMON, &FIVE, LIMIT), OUTSIDE);
    // The lower 48 and 63 bits alone would be in the first mapping.
    assert_eq!(look(&COMMON, &FIVE, LIMIT + 0x10_0000), OUTSIDE);
    assert_eq!(look(&COMMON, &FIVE, (1 << 63) + 0x10_0000), OUTSIDE);
    assert_eq!(look(&COMMON, &FIVE, u64::MAX), OUTSIDE);
}

#[test]
fn the_widest_space() {
    let whole = [[0, LIMIT, 7, 0]];
    assert_eq!(look(&WIDEST, &whole, 0), shows(7, 0, LIMIT));
    assert_eq!(look(&WIDEST, &whole, LIMIT - 1), shows(7, LIMIT - 1, 1));
    assert_eq!(look(&WIDEST, &whole, LIMIT), OUTSIDE);
    assert_eq!(look(&WIDEST, &whole, u64::MAX), OUTSIDE);
    assert_eq!(look(&WIDEST, &[[0, LIMIT + PAGE, 7, 0]], 0), bad_mapping(0));
    assert_eq!(lookup(&WIDEST, &[0; 4], 0, 0), nothing(LIMIT));
    assert_eq!(lookup(&WIDEST, &[0; 4], 0, LIMIT - 1), nothing(1));
    assert_eq!(lookup(&WIDEST, &[0; 4], 0, LIMIT), OUTSIDE);
}

#[test]
fn spaces_that_break_their_rules() {
    let one_below = Space {
        start: 0xf_ffff,
        ..COMMON
    };
    assert_eq!(look(&one_below, &FIVE, 0x10_0000), refused(1));
    // The space comes before length, count and mappings.
    assert_eq!(lookup(&one_below, &[], 1, 0), refused(1));
    assert_eq!(lookup(&one_below, &[1; 7], u64::MAX, 0), refused(1));
    assert_eq!(lookup(&one_below, &[1; 8], 2, 0), refused(1));
}

#[test]
fn lengths() {
    let zeros = [0; 20_000];
    let uneven = [
        1, 2, 3, 5, 6, 7, 9, 2047, 2049, 16_382, 16_383, 16_385, 16_386,
    ];
    for bad in uneven.into_iter().chain([0, 16_388, 20_000]) {
        assert_eq!(lookup(&COMMON, &zeros[..bad], 0, 0), refused(2), "{bad}");
        // The length comes before the count.
        let counted = lookup(&COMMON, &zeros[..bad], 20_000, 0);
        assert_eq!(counted, refused(2), "{bad}");
    }
    for good in [4, 8, 12, 2044, 2048, 2052, 16_380, 16_384] {
        assert_eq!(lookup(&COMMON, &zeros[..good], 0, 0), OUTSIDE, "{good}");
    }
}

#[test]
fn counts() {
    let words = FIVE.concat();
    let last = 0x1f_f000;
    let page = shows(9, LIMIT - PAGE, PAGE);
    assert_eq!(lookup(&COMMON, &words, 5, last), page);
    // Six, as many as there are words, and what 32 bits or four words each would make 5 of.
    for count in [6, 20, (1 << 32) + 5, (1 << 62) + 5, u64::MAX] {
        assert_eq!(lookup(&COMMON, &words, count, last), refused(4), "{count}");
    }
    // The count comes before the mappings.
    assert_eq!(lookup(&COMMON, &[1; 8], 3, 0), refused(4));
    assert_eq!(lookup(&COMMON, &[1; 8], 2, 0), bad_mapping(0));
}

#[test]
fn words_behind_the_count() {
    let words = FIVE.concat();
    let cut = |count: usize| {
        let mut cut = words.clone();
        cut[count * 4..].fill(0);
        cut
    };
    assert_eq!(lookup(&COMMON, &cut(4), 4, 0x1f_f000), nothing(0x1000));
    // No mapping of zeros ends a gap.
    assert_eq!(lookup(&COMMON, &cut(4), 4, 0x18_1000), nothing(0x7_f000));
    assert_eq!(lookup(&COMMON, &cut(2), 2, 0x10_3000), nothing(0xf_d000));
    assert_eq!(lookup(&COMMON, &cut(0), 0, 0x10_0000), nothing(0x10_0000));
    for count in 0..5 {
        let looked = lookup(&COMMON, &words, count, 0x10_0000);
        assert_eq!(looked, refused(17), "{count}");
    }
    let mut damaged = words;
    damaged[4..].fill(u64::MAX);
    assert_eq!(lookup(&COMMON, &damaged, 0, 0x10_0000), refused(17));
    assert_eq!(lookup(&COMMON, &damaged, 1, 0x10_0000), refused(17));
    assert_eq!(lookup(&COMMON, &damaged, 2, 0x10_0000), bad_mapping(1));
}

#[test]
fn multiples_of_a_page() {
    assert_eq!(alone(0x10_0000, PAGE, 7, PAGE), shows(7, PAGE, PAGE));
    assert_eq!(alone(0x10_0001, PAGE, 7, 0), bad_mapping(0));
    assert_eq!(alone(0x10_0800, PAGE, 7, 0), bad_mapping(0));
    assert_eq!(alone(0x10_0000, PAGE + 1, 7, 0), bad_mapping(0));
    assert_eq!(alone(0x10_0000, PAGE - 1, 7, 0), bad_mapping(0));
    assert_eq!(alone(0x10_0000, 0, 7, 0), bad_mapping(0));
    assert_eq!(alone(0x10_0000, PAGE, 7, 1), bad_mapping(0));
    assert_eq!(alone(0x10_0000, PAGE, 7, PAGE - 1), bad_mapping(0));
}

#[test]
fn objects() {
    assert_eq!(alone(0x10_0000, PAGE, 0, 0), bad_mapping(0));
    assert_eq!(alone(0x10_0000, PAGE, 1, 0), shows(1, 0, PAGE));
    let highest = 0xffff_ffff;
    assert_eq!(alone(0x10_0000, PAGE, highest, 0), shows(highest, 0, PAGE));
    assert_eq!(alone(0x10_0000, PAGE, 1 << 32, 0), bad_mapping(0));
    assert_eq!(alone(0x10_0000, PAGE, (1 << 32) + 7, 0), bad_mapping(0));
    assert_eq!(alone(0x10_0000, PAGE, u64::MAX, 0), bad_mapping(0));
}

#[test]
fn offsets() {
    let highest = LIMIT - PAGE;
    assert_eq!(alone(0x10_0000, PAGE, 7, highest), shows(7, highest, PAGE));
    assert_eq!(alone(0x10_0000, 2 * PAGE, 7, highest), bad_mapping(0));
    assert_eq!(alone(0x10_0000, PAGE, 7, LIMIT), bad_mapping(0));
    // The sums are 2^64 and above.
    assert_eq!(alone(0x10_0000, PAGE, 7, LAST_PAGE), bad_mapping(0));
    assert_eq!(alone(0x10_0000, 2 * PAGE, 7, LAST_PAGE), bad_mapping(0));
}

#[test]
fn inside_the_space() {
    assert_eq!(alone(0xf_f000, PAGE, 7, 0), bad_mapping(0));
    assert_eq!(alone(0xf_f000, 2 * PAGE, 7, 0), bad_mapping(0));
    assert_eq!(alone(0x1f_f000, PAGE, 7, 0), shows(7, 0, PAGE));
    assert_eq!(alone(0x1f_f000, 2 * PAGE, 7, 0), bad_mapping(0));
    assert_eq!(alone(0x20_0000, PAGE, 7, 0), bad_mapping(0));
    // The ends are 2^64 and above.
    assert_eq!(alone(LAST_PAGE, PAGE, 7, 0), bad_mapping(0));
    assert_eq!(alone(LAST_PAGE, 2 * PAGE, 7, 0), bad_mapping(0));
    let wrapped = [[LAST_PAGE, 2 * PAGE, 7, 0]];
    assert_eq!(look(&WIDEST, &wrapped, 0), bad_mapping(0));
    // Both sums wrap, to the end of the first page and to 0.
    let both = [[2 * PAGE, LAST_PAGE, 7, PAGE]];
    assert_eq!(look(&WIDEST, &both, 0), bad_mapping(0));
}

#[test]
fn off_the_reservation() {
    assert_eq!(alone(0x13_f000, PAGE, 7, 0), shows(7, 0, PAGE));
    assert_eq!(alone(0x13_f000, 2 * PAGE, 7, 0), bad_mapping(0));
    assert_eq!(alone(0x14_0000, PAGE, 7, 0), bad_mapping(0));
    assert_eq!(alone(0x15_0000, PAGE, 7, 0), bad_mapping(0));
    assert_eq!(alone(0x17_f000, PAGE, 7, 0), bad_mapping(0));
    assert_eq!(alone(0x17_f000, 2 * PAGE, 7, 0), bad_mapping(0));
    assert_eq!(alone(0x18_0000, PAGE, 7, 0), shows(7, 0, PAGE));
    assert_eq!(alone(0x10_0000, 0x10_0000, 7, 0), bad_mapping(0));
    let free = Space {
        reserved_start: 0,
        reserved_size: 0,
        ..COMMON
    };
    let inner = [[0x15_0000, PAGE, 7, 0]];
    assert_eq!(look(&free, &inner, 0x15_0000), shows(7, 0, PAGE));
    let all = Space {
        reserved_start: 0x10_0000,
        reserved_size: 0x10_0000,
        ..COMMON
    };
    assert_eq!(look(&all, &inner, 0x15_0000), bad_mapping(0));
    assert_eq!(lookup(&all, &[0; 4], 0, 0x15_0000), nothing(0xb_0000));
}

#[test]
fn order() {
    let here = shows(7, 0, 0x2000);
    // Apart, touching; then sharing a page, equal.
    assert_eq!(pair([0x10_0000, 0x2000], [0x10_3000, 0x1000]), here);
    assert_eq!(pair([0x10_0000, 0x2000], [0x10_2000, 0x1000]), here);
    let bad = bad_mapping(1);
    assert_eq!(pair([0x10_0000, 0x2000], [0x10_1000, 0x2000]), bad);
    assert_eq!(pair([0x10_0000, 0x2000], [0x10_0000, 0x2000]), bad);
    // One inside the other, either way round.
    assert_eq!(pair([0x10_0000, 0x3000], [0x10_1000, 0x1000]), bad);
    assert_eq!(pair([0x10_1000, 0x1000], [0x10_0000, 0x3000]), bad);
    // The later one first: touching, and apart.
    assert_eq!(pair([0x10_1000, 0x1000], [0x10_0000, 0x1000]), bad);
    assert_eq!(pair([0x10_2000, 0x1000], [0x10_0000, 0x1000]), bad);
}

#[test]
fn lowest_place() {
    for place in 0..5 {
        let mut table = FIVE;
        table[place][2] = 0;
        assert_eq!(look(&COMMON, &table, 0x10_0000), bad_mapping(place as u64));
        // Another bad one behind it does not matter.
        table[4][3] = 1;
        assert_eq!(look(&COMMON, &table, 0x10_0000), bad_mapping(place as u64));
    }
    // Of two in the wrong order it is the later place.
    let mut swapped = FIVE;
    swapped.swap(1, 3);
    assert_eq!(look(&COMMON, &swapped, 0x10_0000), bad_mapping(2));
    // All in the wrong order: the second is the first that precedes its forerunner.
    let [first, second, third, fourth, last] = FIVE;
    let turned = [last, fourth, third, second, first];
    assert_eq!(look(&COMMON, &turned, 0x10_0000), bad_mapping(1));
}

#[test]
fn a_full_table() {
    // 4,096 pages without a gap; object p + 1 at place p.
    let page = |place: u64| [place * PAGE, PAGE, place + 1, place * 2 * PAGE];
    let mut table: Vec<Words> = (0..4096).map(page).collect();
    assert_eq!(look(&WIDEST, &table, 0), shows(1, 0, PAGE));
    assert_eq!(look(&WIDEST, &table, 0xfff), shows(1, 0xfff, 1));
    assert_eq!(look(&WIDEST, &table, 0x1f_ffff), shows(512, 0x3f_efff, 1));
    assert_eq!(
        look(&WIDEST, &table, 0x20_0000),
        shows(513, 0x40_0000, PAGE)
    );
    assert_eq!(
        look(&WIDEST, &table, 0x80_0005),
        shows(2049, 0x100_0005, 0xffb)
    );
    assert_eq!(look(&WIDEST, &table, 0xff_ffff), shows(4096, 0x1ff_efff, 1));
    assert_eq!(
        look(&WIDEST, &table, 0x100_0000),
        nothing(LIMIT - 0x100_0000)
    );
    assert_eq!(lookup(&WIDEST, &table.concat(), 4097, 0), refused(4));
    table.push([0x100_0000, PAGE, 4097, 0]);
    assert_eq!(look(&WIDEST, &table, 0), refused(2));
    table.pop();
    table[4095][2] = 0;
    assert_eq!(look(&WIDEST, &table, 0), bad_mapping(4095));
    table[512][2] = 0;
    assert_eq!(look(&WIDEST, &table, 0), bad_mapping(512));
    table[0][2] = 0;
    assert_eq!(look(&WIDEST, &table, 0), bad_mapping(0));
}

#[test]
fn an_empty_table() {
    let all = nothing(0x10_0000);
    assert_eq!(lookup(&COMMON, &[0; 4], 0, 0x10_0000), all);
    assert_eq!(lookup(&COMMON, &[0; 16_384], 0, 0x10_0000), all);
    let full = [u64::MAX; 16_384];
    assert_eq!(lookup(&COMMON, &full, 0, 0x10_0000), refused(17));
    assert_eq!(lookup(&COMMON, &[0; 4], 0, 0x1f_ffff), nothing(1));
    assert_eq!(lookup(&COMMON, &[0; 4], 0, 0x20_0000), OUTSIDE);
    assert_eq!(lookup(&COMMON, &[0; 4], 1, 0x10_0000), bad_mapping(0));
}

/// In a few pages byte by byte, from the last one on: a byte goes on as far as the next one if the
/// same mapping has both, or none has either.
#[test]
fn every_byte_of_a_few_pages() {
    let (start, end) = (16 * PAGE, 24 * PAGE);
    let space = Space {
        start,
        size: end - start,
        reserved_start: 20 * PAGE,
        reserved_size: PAGE,
    };
    // From page, pages. All show one object, and each goes on as the one before it.
    let tables: [&[[u64; 2]]; 4] = [
        &[],
        &[[17, 1], [18, 2], [22, 1]],
        &[[16, 1], [17, 1], [19, 1], [21, 3]],
        &[[16, 4], [21, 1], [23, 1]],
    ];
    for drawn in tables {
        let mapping = |&[page, pages]: &[u64; 2]| [page * PAGE, pages * PAGE, 7, page * PAGE];
        let mappings: Vec<Words> = drawn.iter().map(mapping).collect();
        let words = [mappings.concat(), vec![0; 4]].concat();
        let owner = |byte: u64| {
            let has = |[page, pages]: &[u64; 2]| (*page..page + pages).contains(&(byte / PAGE));
            drawn.iter().position(has)
        };
        let look = |byte: u64| lookup(&space, &words, drawn.len() as u64, byte);
        assert_eq!([look(start - 1), look(end)], [OUTSIDE; 2]);
        let mut bytes = 0;
        for byte in (start..end).rev() {
            let goes_on = byte + 1 < end && owner(byte) == owner(byte + 1);
            bytes = if goes_on { bytes + 1 } else { 1 };
            let expected = match owner(byte) {
                Some(_) => shows(7, byte, bytes),
                None => nothing(bytes),
            };
            assert_eq!(look(byte), expected, "{byte:#x} in {drawn:?}");
        }
    }
}
