//! The version of the crate, and that of the library that it is linked with.

use crate::declarations::day_version;
use std::fmt;

/// A version; versions are compared by their numbers.
#[derive(Clone, Copy, Debug, PartialEq, Eq, PartialOrd, Ord)]
pub struct Version {
    /// Rises where what was there changes.
    pub major: u32,
    /// Rises where something is added.
    pub minor: u32,
    /// Rises where nothing is added.
    pub patch: u32,
}

/// The crate's version.
pub const VERSION: Version = Version {
    major: number(env!("CARGO_PKG_VERSION_MAJOR")),
    minor: number(env!("CARGO_PKG_VERSION_MINOR")),
    patch: number(env!("CARGO_PKG_VERSION_PATCH")),
};

impl Version {
    /// The version of the library that the program is linked with.
    pub fn of_library() -> Version {
        // SAFETY: it takes nothing and gives a number.
        let number = unsafe { day_version() };
        Version { major: number / 1_000_000, minor: number / 1_000 % 1_000, patch: number % 1_000 }
    }

    /// Is a library of this version one that the crate is for: of its major version, and of its minor one
    /// or a higher one?
    pub fn fits(self) -> bool {
        self.major == VERSION.major && self.minor >= VERSION.minor
    }
}

impl fmt::Display for Version {
    fn fmt(&self, text: &mut fmt::Formatter) -> fmt::Result {
        write!(text, "{}.{}.{}", self.major, self.minor, self.patch)
    }
}

/// The number that digits write.
const fn number(digits: &str) -> u32 {
    let digits = digits.as_bytes();
    let (mut at, mut number) = (0, 0);
    while at < digits.len() {
        number = 10 * number + (digits[at] - b'0') as u32;
        at += 1;
    }
    number
}

#[cfg(test)]
mod tests {
    use super::{Version, VERSION};

    #[test]
    fn crate_library_and_header_are_of_one_version() {
        assert_eq!(Version::of_library(), VERSION);
        let header = include_str!("../../host/settlement_day.h");
        let Version { major, minor, patch } = VERSION;
        for (name, number) in [("MAJOR", major), ("MINOR", minor), ("PATCH", patch)] {
            let line = format!("#define DAY_VERSION_{name} {number}u");
            assert!(header.lines().any(|other| other == line), "{line}");
        }
        assert_eq!(VERSION.to_string(), env!("CARGO_PKG_VERSION"));
    }

    #[test]
    fn a_later_minor_version_fits_and_no_other_major_one() {
        let Version { major, minor, patch } = VERSION;
        assert!(VERSION.fits() && Version { minor: minor + 1, patch: 0, ..VERSION }.fits());
        assert!(!Version { major: major + 1, minor, patch }.fits());
        assert!(!Version { major: major - 1, minor: minor + 1, patch }.fits());
    }
}
