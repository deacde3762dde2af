//! One writer a folder: a lock on the folder's file `lock`, which the system takes away when the process
//! that holds it ends, however it ends.

use std::ffi::c_int;
use std::fs::File;
use std::io;
use std::os::fd::AsRawFd;
use std::path::Path;

/// The name of the file.
pub const LOCK: &str = "lock";

/// For one process alone; and not to wait for it.
const EXCLUSIVE: c_int = 2;
const AT_ONCE: c_int = 4;

extern "C" {
    fn flock(file: c_int, operation: c_int) -> c_int;
}

/// The lock of a folder, held as long as this is there.
#[derive(Debug)]
pub struct Lock {
    _file: File,
}

/// Takes the lock of a folder, whose file is made where it is not there; none where another process, or
/// another part of this one, holds it.
pub fn take(folder: &Path) -> io::Result<Option<Lock>> {
    let file = File::options()
        .read(true)
        .write(true)
        .create(true)
        .truncate(false)
        .open(folder.join(LOCK))?;
    // SAFETY: the number is that of a file that is open until after the call.
    if unsafe { flock(file.as_raw_fd(), EXCLUSIVE | AT_ONCE) } == 0 {
        return Ok(Some(Lock { _file: file }));
    }
    match io::Error::last_os_error() {
        error if error.kind() == io::ErrorKind::WouldBlock => Ok(None),
        error => Err(error),
    }
}

/// Does another process hold the lock of a folder? Nothing is made.
pub fn held(folder: &Path) -> bool {
    let Ok(file) = File::open(folder.join(LOCK)) else { return false };
    // SAFETY: as above; the lock goes with the file, at the end of this function.
    unsafe { flock(file.as_raw_fd(), EXCLUSIVE | AT_ONCE) != 0 }
}

#[cfg(test)]
mod tests {
    use super::*;

    #[test]
    fn one_holds_it_until_it_is_gone() {
        let folder = std::env::temp_dir().join(format!("daybook-lock-{}", std::process::id()));
        std::fs::create_dir_all(&folder).unwrap();
        assert!(!held(&folder));
        let lock = take(&folder).unwrap();
        assert!(lock.is_some() && held(&folder) && take(&folder).unwrap().is_none());
        drop(lock);
        assert!(!held(&folder) && take(&folder).unwrap().is_some());
        std::fs::remove_dir_all(&folder).unwrap();
    }
}
