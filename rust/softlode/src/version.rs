//! The versions of the library and of this wrapper.

use std::fmt;

use crate::ffi;

/// A version, which prints as `1.0.0`.
#[derive(Clone, Copy, Debug, PartialEq, Eq, PartialOrd, Ord, Hash)]
pub struct Version {
    /// Raised whenever something that was there changes.
    pub major: u32,
    /// Raised for what is added beside it.
    pub minor: u32,
    /// Raised for all else.
    pub patch: u32,
}

impl fmt::Display for Version {
    fn fmt(&self, f: &mut fmt::Formatter<'_>) -> fmt::Result {
        let Version { major, minor, patch } = self;
        write!(f, "{major}.{minor}.{patch}")
    }
}

const fn number(digits: &str) -> u32 {
    match u32::from_str_radix(digits, 10) {
        Ok(number) => number,
        Err(_) => panic!("a version is made of numbers"),
    }
}

/// The version of this wrapper, and of the header that it follows.
pub const VERSION: Version = Version {
    major: number(env!("CARGO_PKG_VERSION_MAJOR")),
    minor: number(env!("CARGO_PKG_VERSION_MINOR")),
    patch: number(env!("CARGO_PKG_VERSION_PATCH")),
};

impl Version {
    /// The version that is told as one number.
    fn of(number: u32) -> Version {
        Version { major: number / 1_000_000, minor: number / 1_000 % 1_000, patch: number % 1_000 }
    }

    /// Whether a library of this version does what is expected of another.
    fn serves(self, expected: Version) -> bool {
        self.major == expected.major && self >= expected
    }
}

/// The version of the library that runs.
pub fn version() -> Version {
    Version::of(ffi::version())
}

/// Whether the library that runs does what this wrapper says: the major version is the same, and it
/// is no older. A host asks once, at its start, since the library may be another than the one that
/// came with the wrapper.
///
/// ```
/// assert!(softlode::fits(), "the library is {}", softlode::version());
/// assert!(softlode::version() >= softlode::VERSION);
/// assert_eq!(softlode::VERSION.to_string(), "1.0.0");
/// ```
pub fn fits() -> bool {
    version().serves(VERSION)
}

#[cfg(test)]
mod tests {
    use super::*;

    #[test]
    fn the_same_major_and_no_older() {
        let expected = Version { major: 1, minor: 2, patch: 3 };
        assert_eq!(Version::of(1_002_003), expected);
        for number in [1_002_003, 1_002_004, 1_003_000, 1_999_999] {
            assert!(Version::of(number).serves(expected), "{number}");
        }
        for number in [0, 2_003, 1_000_000, 1_001_999, 1_002_002, 2_000_000, 2_002_003, u32::MAX] {
            assert!(!Version::of(number).serves(expected), "{number}");
        }
    }
}
