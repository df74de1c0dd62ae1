//! The records of a script as bytes, of any numbers.

use crate::script::{ADDRESS_BYTES, MARK_BYTES, SPACE_BYTES};
use crate::{Record, Space, RECORD_BYTES};

pub fn space(space: &Space) -> [u8; MARK_BYTES + SPACE_BYTES] {
    let mut bytes = [0; MARK_BYTES + SPACE_BYTES];
    bytes[..2].copy_from_slice(b"SP");
    bytes[2..10].copy_from_slice(&space.start.to_le_bytes());
    bytes[10..18].copy_from_slice(&space.size.to_le_bytes());
    bytes[18..26].copy_from_slice(&space.reserved_start.to_le_bytes());
    bytes[26..34].copy_from_slice(&space.reserved_size.to_le_bytes());
    bytes
}

pub fn request(record: &Record) -> [u8; MARK_BYTES + RECORD_BYTES] {
    let mut bytes = [0; MARK_BYTES + RECORD_BYTES];
    bytes[..2].copy_from_slice(b"RQ");
    bytes[2..].copy_from_slice(&record.encode());
    bytes
}

pub fn lookup(address: u64) -> [u8; MARK_BYTES + ADDRESS_BYTES] {
    let mut bytes = [0; MARK_BYTES + ADDRESS_BYTES];
    bytes[..2].copy_from_slice(b"LK");
    bytes[2..].copy_from_slice(&address.to_le_bytes());
    bytes
}
