//! Access control lists of files.
#![allow(unsafe_code)]

use std::{ffi::CString, io, os::unix::ffi::OsStrExt, path::Path};

const NAME: &std::ffi::CStr = c"system.posix_acl_access";

/// A list that lets user 65534 read and write: version 2, then for each entry its tag, what it allows
/// and its user, all little-endian.
pub fn list() -> Vec<u8> {
    const NOBODY: u32 = u32::MAX;
    let entries = [
        (1, 6, NOBODY),
        (2, 6, 65534),
        (4, 4, NOBODY),
        (0x10, 6, NOBODY),
        (0x20, 0, NOBODY),
    ];
    let mut bytes = 2_u32.to_le_bytes().to_vec();
    for (tag, allowed, user) in entries {
        bytes.extend(u16::to_le_bytes(tag));
        bytes.extend(u16::to_le_bytes(allowed));
        bytes.extend(u32::to_le_bytes(user));
    }
    bytes
}

pub fn set(path: &Path, list: &[u8]) -> io::Result<()> {
    let path = CString::new(path.as_os_str().as_bytes()).unwrap();
    let bytes = list.as_ptr().cast();
    // SAFETY: path and name end in a zero, and as many bytes are read as the list has.
    match unsafe { libc::setxattr(path.as_ptr(), NAME.as_ptr(), bytes, list.len(), 0) } {
        0 => Ok(()),
        _ => Err(io::Error::last_os_error()),
    }
}

/// The list of a file, empty if it has none.
pub fn get(path: &Path) -> Vec<u8> {
    let path = CString::new(path.as_os_str().as_bytes()).unwrap();
    let mut list = vec![0; 1000];
    let bytes = list.as_mut_ptr().cast();
    // SAFETY: path and name end in a zero, and at most as many bytes are written as the buffer has.
    let length = unsafe { libc::getxattr(path.as_ptr(), NAME.as_ptr(), bytes, list.len()) };
    list.truncate(usize::try_from(length).unwrap_or(0));
    list
}
