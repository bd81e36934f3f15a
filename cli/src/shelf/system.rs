//! Calls of the system that Rust's library has no safe ones for.
#![allow(unsafe_code)]

use std::{
    ffi::{CStr, CString},
    fs::File,
    io,
    os::{fd::AsRawFd, unix::ffi::OsStrExt},
    path::Path,
    ptr,
};

/// Lets a write beyond the file-size limit fail with an error, where a signal would end the process:
/// so the temporary file is removed and the failure is told.
pub fn survive_file_size_limit() {
    // SAFETY: no handler is installed, the signal is ignored; nothing else in this program sets it.
    unsafe {
        libc::signal(libc::SIGXFSZ, libc::SIG_IGN);
    }
}

/// Renames a file, unless there is one of the new name.
pub fn rename_new(from: &Path, to: &Path) -> io::Result<()> {
    let from = CString::new(from.as_os_str().as_bytes())?;
    let to = CString::new(to.as_os_str().as_bytes())?;
    let here = libc::AT_FDCWD;
    // SAFETY: both names end in a zero and outlive the call.
    done(unsafe {
        libc::renameat2(
            here,
            from.as_ptr(),
            here,
            to.as_ptr(),
            libc::RENAME_NOREPLACE,
        )
    })
}

fn done(result: libc::c_int) -> io::Result<()> {
    match result {
        0 => Ok(()),
        _ => Err(io::Error::last_os_error()),
    }
}

/// Where Linux keeps the access control list of a file, beyond the bits of its mode.
const LIST: &CStr = c"system.posix_acl_access";

/// Makes the access control list of a file that of another, or removes it if that has none. It can
/// be at most 65,536 bytes long.
pub fn copy_access_list(from: &File, to: &File) -> io::Result<()> {
    let mut list = vec![0_u8; 1 << 16];
    // SAFETY: the name ends in a zero, and at most as many bytes are written as the buffer has.
    let length = unsafe {
        libc::fgetxattr(
            from.as_raw_fd(),
            LIST.as_ptr(),
            list.as_mut_ptr().cast(),
            list.len(),
        )
    };
    let Ok(length) = usize::try_from(length) else {
        // SAFETY: the name ends in a zero. There may be nothing to remove.
        unsafe { libc::fremovexattr(to.as_raw_fd(), LIST.as_ptr()) };
        return Ok(());
    };
    let list = &list[..length];
    // SAFETY: the name ends in a zero, and as many bytes are read as the list has.
    let set = unsafe {
        libc::fsetxattr(
            to.as_raw_fd(),
            LIST.as_ptr(),
            ptr::from_ref(list).cast(),
            list.len(),
            0,
        )
    };
    done(set)
}
