//! A request, the record in which it may come, and its rules.

use crate::{answer, is_page_multiple, Extent, Space, HIGHEST_OBJECT, LIMIT};

pub const MAP: u64 = 0;
pub const UNMAP: u64 = 1;

/// The one flag that there is: a request for a sparse range, bit 8.
pub const SPARSE: u64 = 1 << 8;

pub const RECORD_BYTES: usize = 40;

/// The numbers of a request, in their order, and its flags, which only a record brings to C.
#[derive(Clone, Copy, Debug, PartialEq, Eq)]
pub struct Request {
    pub op: u64,
    pub address: u64,
    pub size: u64,
    pub object: u64,
    pub offset: u64,
    pub flags: u64,
}

impl Request {
    pub fn extent(&self) -> Extent {
        Extent::new(self.address, self.size)
    }

    /// Whether it asks for a sparse range to be added or removed, and not for a mapping.
    pub fn is_sparse(&self) -> bool {
        self.flags == SPARSE
    }

    /// The same by numbers, as C has them: flags count as 0.
    pub fn without_flags(self) -> Request {
        Request { flags: 0, ..self }
    }
}

/// The fields of a record, in their order.
#[derive(Clone, Copy, Debug, PartialEq, Eq)]
pub struct Record {
    pub op: u32,
    pub flags: u32,
    pub handle: u32,
    pub pad: u32,
    pub addr: u64,
    pub bo_offset: u64,
    pub range: u64,
}

impl Record {
    /// A record whose flags and pad are 0.
    pub fn plain(op: u32, handle: u32, addr: u64, bo_offset: u64, range: u64) -> Record {
        Record {
            op,
            flags: 0,
            handle,
            pad: 0,
            addr,
            bo_offset,
            range,
        }
    }

    /// A record with the flag, of a sparse range. It names no object and has no offset.
    pub fn sparse(op: u32, addr: u64, range: u64) -> Record {
        Record {
            flags: SPARSE as u32,
            ..Record::plain(op, 0, addr, 0, range)
        }
    }

    /// The bytes of any fields, also of those that `decode` refuses.
    pub fn encode(&self) -> [u8; RECORD_BYTES] {
        let mut bytes = [0; RECORD_BYTES];
        bytes[0..4].copy_from_slice(&self.op.to_le_bytes());
        bytes[4..8].copy_from_slice(&self.flags.to_le_bytes());
        bytes[8..12].copy_from_slice(&self.handle.to_le_bytes());
        bytes[12..16].copy_from_slice(&self.pad.to_le_bytes());
        bytes[16..24].copy_from_slice(&self.addr.to_le_bytes());
        bytes[24..32].copy_from_slice(&self.bo_offset.to_le_bytes());
        bytes[32..40].copy_from_slice(&self.range.to_le_bytes());
        bytes
    }

    /// The same as numbers, which have no pad.
    pub fn request(&self) -> Request {
        Request {
            op: u64::from(self.op),
            address: self.addr,
            size: self.range,
            object: u64::from(self.handle),
            offset: self.bo_offset,
            flags: u64::from(self.flags),
        }
    }
}

/// The little-endian number in these bytes, at most eight.
pub(crate) fn number(bytes: &[u8]) -> u64 {
    bytes
        .iter()
        .rev()
        .fold(0, |sum, &byte| sum * 256 + u64::from(byte))
}

fn op_holds(op: u64) -> bool {
    op == MAP || op == UNMAP
}

/// What a request is refused for before anything else that is lent is looked at.
pub fn form_refusal(request: &Request) -> Option<u32> {
    if !op_holds(request.op) {
        Some(answer::BAD_OP)
    } else if request.flags != 0 && !request.is_sparse() {
        Some(answer::BAD_FLAGS)
    } else {
        None
    }
}

/// The request in a record, or the refusal of the record itself.
pub fn decode(bytes: &[u8]) -> Result<Request, u32> {
    if bytes.len() != RECORD_BYTES {
        return Err(answer::BAD_RECORD_LENGTH);
    }
    let record = Record {
        op: number(&bytes[0..4]) as u32,
        flags: number(&bytes[4..8]) as u32,
        handle: number(&bytes[8..12]) as u32,
        pad: number(&bytes[12..16]) as u32,
        addr: number(&bytes[16..24]),
        bo_offset: number(&bytes[24..32]),
        range: number(&bytes[32..40]),
    };
    let request = record.request();
    match form_refusal(&request) {
        Some(number) => Err(number),
        None if record.pad != 0 => Err(answer::BAD_FLAGS),
        None => Ok(request),
    }
}

fn is_aligned(request: &Request) -> bool {
    is_page_multiple(request.address)
        && is_page_multiple(request.size)
        && is_page_multiple(request.offset)
        && request.size != 0
}

/// A map names an object; an unmap, or what asks for a sparse range, names none and has no offset.
fn object_holds(request: &Request) -> bool {
    match request.op {
        MAP if !request.is_sparse() => (1..=HIGHEST_OBJECT).contains(&request.object),
        _ => request.object == 0 && request.offset == 0,
    }
}

fn offset_holds(request: &Request) -> bool {
    request.op != MAP || Extent::new(request.offset, request.size).end <= LIMIT
}

/// The first rule that a request breaks in a space that keeps its own; its op and flags are good.
pub fn request_refusal(request: &Request, space: &Space) -> Option<u32> {
    if !is_aligned(request) {
        Some(answer::UNALIGNED)
    } else if !request.extent().is_inside(&space.extent()) {
        Some(answer::OUTSIDE_SPACE)
    } else if space.reserves_byte_of(&request.extent()) {
        Some(answer::RESERVED)
    } else if !object_holds(request) {
        Some(answer::BAD_OBJECT)
    } else if !offset_holds(request) {
        Some(answer::BAD_OFFSET)
    } else {
        None
    }
}
