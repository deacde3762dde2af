//! The desk's console: a book in a folder, kept as a snapshot and a journal of the calls since. A call is
//! answered when its record is on the disk.

pub mod answer;
pub mod arguments;
pub mod call;
pub mod console;
pub mod faults;
pub mod files;
pub mod folder;
pub mod format;
pub mod history;
pub mod json;
pub mod line;
pub mod lock;
pub mod orders;
pub mod sentences;
pub mod store;
pub mod verbs;
