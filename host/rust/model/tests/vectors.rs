//! The model's answers to inputs that were worked out by hand.

use waylluqen_model::{check_request, decode, space_holds, Record, Request, Space, PAGE};

/// The ops as a record has them.
const MAP: u32 = 0;
const UNMAP: u32 = 1;

const LIMIT: u64 = 1 << 48;
const LAST_PAGE: u64 = u64::MAX - PAGE + 1;

fn space(start: u64, size: u64, reserved_start: u64, reserved_size: u64) -> Space {
    Space {
        start,
        size,
        reserved_start,
        reserved_size,
    }
}

/// `[0x10_0000, 0x20_0000)` with `[0x14_0000, 0x18_0000)` reserved.
fn common() -> Space {
    space(0x10_0000, 0x10_0000, 0x14_0000, 0x4_0000)
}

fn answer(request: Record) -> u32 {
    check_request(&request.encode(), &common())
}

#[test]
fn fields_have_their_places() {
    let mut record = [0; 40];
    for (place, byte) in record.iter_mut().enumerate() {
        *byte = place as u8;
    }
    record[0..8].copy_from_slice(&[1, 0, 0, 0, 0, 0, 0, 0]);
    record[12..16].fill(0);
    let request = Request {
        op: 1,
        address: 0x1716_1514_1312_1110,
        size: 0x2726_2524_2322_2120,
        object: 0x0b0a_0908,
        offset: 0x1f1e_1d1c_1b1a_1918,
        flags: 0,
    };
    let fields = Record {
        op: UNMAP,
        flags: 0,
        handle: 0x0b0a_0908,
        pad: 0,
        addr: request.address,
        bo_offset: request.offset,
        range: request.size,
    };
    assert_eq!(decode(&record), Ok(request));
    assert_eq!(fields.encode(), record);
    // The one flag, bit 8.
    record[5] = 1;
    let flagged = Record {
        flags: 256,
        ..fields
    };
    let request = Request {
        flags: 256,
        ..request
    };
    assert_eq!(decode(&record), Ok(request));
    assert_eq!(flagged.encode(), record);
}

#[test]
fn records_are_refused() {
    let good = Record::plain(MAP, 7, 0x10_0000, 0, PAGE);
    let record = good.encode();
    assert_eq!(decode(&record), Ok(good.request()));
    assert_eq!(decode(&record[..39]), Err(12));
    assert_eq!(decode(&[record, record].concat()), Err(12));
    assert_eq!(decode(&[]), Err(12));
    let two_wrong = Record {
        op: 2,
        flags: 1,
        ..good
    };
    assert_eq!(decode(&two_wrong.encode()), Err(13));
    assert_eq!(decode(&Record { flags: 1, ..good }.encode()), Err(14));
    assert_eq!(decode(&Record { pad: 1, ..good }.encode()), Err(14));
}

/// No flag but bit 8, alone, and no pad beside it.
#[test]
fn flags() {
    let with = |op: u32, flags: u32, pad: u32| {
        let record = Record {
            flags,
            pad,
            ..Record::sparse(op, 0x10_0000, PAGE)
        };
        let by_record = decode(&record.encode()).err();
        assert_eq!(answer(record), by_record.unwrap_or(0));
        by_record
    };
    for op in [MAP, UNMAP] {
        assert_eq!(with(op, 256, 0), None);
        assert_eq!(with(op, 256, 1), Some(14));
        assert_eq!(with(op, 256, 256), Some(14));
        for flags in [1, 8, 128, 255, 257, 512, 768, 0x0100_0100, u32::MAX] {
            assert_eq!(with(op, flags, 0), Some(14), "{flags}");
        }
        for bit in (0..32).filter(|&bit| bit != 8) {
            assert_eq!(with(op, 1 << bit, 0), Some(14), "bit {bit}");
            assert_eq!(with(op, 256 | 1 << bit, 0), Some(14), "bit {bit}");
        }
    }
    // The op comes first.
    assert_eq!(with(2, 256, 0), Some(13));
    assert_eq!(with(256, 1, 1), Some(13));
}

/// With the flag no object and no offset, whatever the op; but an offset within a page is 6.
#[test]
fn sparse_requests() {
    for op in [MAP, UNMAP] {
        let good = Record::sparse(op, 0x10_0000, PAGE);
        let with = |change: fn(&mut Record)| {
            let mut record = good;
            change(&mut record);
            answer(record)
        };
        assert_eq!(answer(good), 0);
        assert_eq!(with(|record| record.addr = 0x10_0001), 6);
        assert_eq!(with(|record| record.range = 0), 6);
        assert_eq!(with(|record| record.range = PAGE + 1), 6);
        assert_eq!(with(|record| record.bo_offset = 1), 6);
        assert_eq!(with(|record| record.bo_offset = PAGE - 1), 6);
        assert_eq!(with(|record| record.addr = 0x20_0000), 7);
        assert_eq!(with(|record| record.range = 0x10_1000), 7);
        assert_eq!(with(|record| record.addr = LAST_PAGE), 7);
        assert_eq!(with(|record| record.addr = 0x14_0000), 8);
        assert_eq!(with(|record| record.range = 0x4_1000), 8);
        assert_eq!(with(|record| record.range = 0x4_0000), 0);
        assert_eq!(with(|record| record.handle = 1), 9);
        assert_eq!(with(|record| record.handle = u32::MAX), 9);
        assert_eq!(with(|record| record.bo_offset = PAGE), 9);
        // Never 10, which is about what a mapping shows.
        assert_eq!(with(|record| record.bo_offset = LIMIT), 9);
        assert_eq!(with(|record| record.bo_offset = LAST_PAGE), 9);
    }
    let bad = space(1, 0, 0, 0);
    let record = Record::sparse(MAP, 1, 0);
    assert_eq!(check_request(&record.encode(), &bad), 1);
    // All that there is in one range.
    let whole = Record::sparse(MAP, 0, LIMIT);
    assert_eq!(check_request(&whole.encode(), &space(0, LIMIT, 0, 0)), 0);
}

#[test]
fn spaces_that_hold() {
    assert!(space_holds(&common()));
    assert!(space_holds(&space(0, LIMIT, 0, 0)));
    assert!(space_holds(&space(LIMIT - PAGE, PAGE, 0, 0)));
    assert!(space_holds(&space(PAGE, PAGE, PAGE, PAGE)));
    assert!(space_holds(&space(0, 2 * PAGE, 0, PAGE)));
}

#[test]
fn spaces_that_do_not_hold() {
    assert!(!space_holds(&space(0, 0, 0, 0)));
    assert!(!space_holds(&space(1, PAGE, 0, 0)));
    assert!(!space_holds(&space(0, PAGE + 1, 0, 0)));
    assert!(!space_holds(&space(0, LIMIT + PAGE, 0, 0)));
    assert!(!space_holds(&space(LAST_PAGE, 2 * PAGE, 0, 0)));
    assert!(!space_holds(&space(0, LIMIT, PAGE, 0)));
    assert!(!space_holds(&space(0, LIMIT, 1, PAGE)));
    assert!(!space_holds(&space(0, LIMIT, PAGE, PAGE + 1)));
    assert!(!space_holds(&space(PAGE, PAGE, 0, PAGE)));
    assert!(!space_holds(&space(PAGE, PAGE, PAGE, 2 * PAGE)));
    assert!(!space_holds(&space(0, LIMIT, LAST_PAGE, 2 * PAGE)));
}

#[test]
fn ranges() {
    assert_eq!(answer(Record::plain(MAP, 7, 0x10_0000, 0, 0)), 6);
    assert_eq!(answer(Record::plain(MAP, 7, 0x30_0000, 0, 0)), 6);
    assert_eq!(answer(Record::plain(MAP, 7, 0x10_0001, 0, PAGE)), 6);
    assert_eq!(answer(Record::plain(MAP, 7, 0x1f_f000, 0, PAGE)), 0);
    assert_eq!(answer(Record::plain(MAP, 7, 0x1f_f000, 0, 2 * PAGE)), 7);
    assert_eq!(answer(Record::plain(MAP, 7, LAST_PAGE, 0, 2 * PAGE)), 7);
    assert_eq!(answer(Record::plain(MAP, 7, 0x13_f000, 0, PAGE)), 0);
    assert_eq!(answer(Record::plain(MAP, 7, 0x13_f000, 0, 2 * PAGE)), 8);
    assert_eq!(answer(Record::plain(UNMAP, 0, 0x17_f000, 0, 2 * PAGE)), 8);
    assert_eq!(answer(Record::plain(UNMAP, 0, 0x18_0000, 0, PAGE)), 0);
}

#[test]
fn objects_and_offsets() {
    assert_eq!(answer(Record::plain(MAP, 0, 0x10_0000, 0, PAGE)), 9);
    assert_eq!(answer(Record::plain(MAP, u32::MAX, 0x10_0000, 0, PAGE)), 0);
    assert_eq!(answer(Record::plain(UNMAP, 7, 0x10_0000, 0, PAGE)), 9);
    assert_eq!(answer(Record::plain(UNMAP, 0, 0x10_0000, 1, PAGE)), 6);
    assert_eq!(answer(Record::plain(UNMAP, 0, 0x10_0000, PAGE, PAGE)), 9);
    let highest = LIMIT - PAGE;
    assert_eq!(answer(Record::plain(MAP, 7, 0x10_0000, highest, PAGE)), 0);
    assert_eq!(
        answer(Record::plain(MAP, 7, 0x10_0000, highest, 2 * PAGE)),
        10
    );
    assert_eq!(
        answer(Record::plain(MAP, 7, 0x10_0000, LAST_PAGE, PAGE)),
        10
    );
    assert_eq!(
        answer(Record::plain(MAP, 7, 0x10_0000, LAST_PAGE, 2 * PAGE)),
        10
    );
}

#[test]
fn space_comes_after_the_record() {
    let bad = space(1, 0, 0, 0);
    let good = Record::plain(MAP, 7, 0x10_0000, 0, PAGE);
    assert_eq!(check_request(&good.encode(), &bad), 1);
    assert_eq!(check_request(&[], &bad), 12);
    // The op is looked at before the space, and the space before the rest of the request.
    assert_eq!(
        check_request(&Record::plain(2, 0, 1, 1, 0).encode(), &bad),
        13
    );
    assert_eq!(
        check_request(&Record::plain(MAP, 0, 1, 1, 0).encode(), &bad),
        1
    );
}
