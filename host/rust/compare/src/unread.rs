//! How much of what was written to a pipe has not been read: the standard library does not tell.

#![allow(unsafe_code)]

use std::ffi::{c_int, c_ulong};
use std::io;
use std::os::fd::{AsFd, AsRawFd};

/// The number of this question on Linux.
const FIONREAD: c_ulong = 0x541b;

extern "C" {
    fn ioctl(descriptor: c_int, request: c_ulong, ...) -> c_int;
}

/// The bytes that are in the pipe; either end of it will do.
pub fn unread(pipe: impl AsFd) -> usize {
    let mut bytes: c_int = 0;
    let descriptor = pipe.as_fd().as_raw_fd();
    // SAFETY: the descriptor is open, and the answer is one `int`, to which the pointer leads.
    let failed = unsafe { ioctl(descriptor, FIONREAD, &raw mut bytes) };
    assert_eq!(failed, 0, "FIONREAD: {}", io::Error::last_os_error());
    usize::try_from(bytes).expect("no fewer than 0")
}
