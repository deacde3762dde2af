//! A run that is interrupted leaves no half-written file: the one file that is being written is named
//! here, and a signal that ends the program removes it first. A pipe that nobody reads ends it too.

use std::ffi::{c_char, c_int, CString};
use std::os::unix::ffi::OsStrExt;
use std::path::Path;
use std::ptr;
use std::sync::atomic::{AtomicPtr, Ordering};
use std::sync::Once;

/// The signals by which a run is interrupted: a closed terminal, a key, and `kill`.
const SIGNALS: [c_int; 3] = [1, 2, 15];
/// The signal of a pipe that nobody reads.
const UNREAD: c_int = 13;
/// What a signal does where no function is set for it: the default, or nothing.
const DEFAULT: usize = 0;
const IGNORED: usize = 1;

/// The name of the file that is being written, or null. A name is never freed: the signal may be
/// reading it.
static WRITING: AtomicPtr<c_char> = AtomicPtr::new(ptr::null_mut());

extern "C" {
    fn signal(number: c_int, action: usize) -> usize;
    fn raise(number: c_int) -> c_int;
    fn unlink(name: *const c_char) -> c_int;
}

/// Names the file that is removed if the program is interrupted.
pub fn writing(file: &Path) {
    static SET: Once = Once::new();
    let Ok(name) = CString::new(file.as_os_str().as_bytes()) else { return };
    WRITING.store(name.into_raw(), Ordering::SeqCst);
    SET.call_once(|| {
        let action = interrupted as extern "C" fn(c_int);
        // SAFETY: the action is a function of this signature, and does only what is allowed in a
        // signal. A signal that is ignored, as under `nohup`, stays so.
        SIGNALS.iter().for_each(|&number| unsafe {
            if signal(number, action as usize) == IGNORED {
                signal(number, IGNORED);
            }
        });
    });
}

/// The file is in its place, or removed.
pub fn written() {
    WRITING.store(ptr::null_mut(), Ordering::SeqCst);
}

/// Ends the program by the signal of a pipe that nobody reads, which it ignores otherwise.
pub fn end_unread() {
    interrupted(UNREAD);
}

/// Removes the file and ends the program by the signal.
extern "C" fn interrupted(number: c_int) {
    let name = WRITING.swap(ptr::null_mut(), Ordering::SeqCst);
    // SAFETY: `unlink`, `signal` and `raise` may be called in a signal; the name is a C string that is
    // never freed.
    unsafe {
        if !name.is_null() {
            unlink(name);
        }
        signal(number, DEFAULT);
        raise(number);
    }
}
