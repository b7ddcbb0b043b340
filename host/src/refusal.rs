//! 01's refusals.
use core::fmt;

/// Why a call gave no answer: 01's number, and how many records had been opened before.
#[derive(Clone, Copy, Debug, PartialEq, Eq, Hash)]
pub struct Refusal {
    number: u64,
    opened: u64,
}

impl Refusal {
    pub(crate) fn new(number: u64, opened: u64) -> Self {
        Self { number, opened }
    }

    /// 01's number, one of the constants below.
    pub fn number(&self) -> u64 {
        self.number
    }

    /// How many records were opened, or in a check found in order, before the refusal; 0 where a key is refused.
    pub fn opened(&self) -> u64 {
        self.opened
    }
}

/// Each refusal's name, number and meaning, as `include/ntfs_index.h` has them.
macro_rules! refusals {
    ($($name:ident = $number:literal, $text:literal;)*) => {
        impl Refusal {
            $(
                #[doc = $text]
                pub const $name: u64 = $number;
            )*

            /// What the number means, in 01's words.
            pub fn text(&self) -> &'static str {
                match self.number {
                    $($number => $text,)*
                    _ => "no refusal of 01",
                }
            }
        }

        #[cfg(test)]
        const REFUSALS: &[(&str, u64, &str)] = &[$((stringify!($name), $number, $text),)*];
    };
}

refusals! {
    ROOT_TOO_SHORT = 1, "root shorter than 32";
    ROOT_START_OUTSIDE = 2, "root entries start at or past the root's length";
    ROOT_END_OUTSIDE = 3, "root used end past its length";
    ROOT_START_PAST_END = 4, "root entries start past the used end";
    LARGE_WITHOUT_POOL = 5, "large flag, pool empty";
    SIZE_NOT_ALLOWED = 6, "record or cluster size not allowed";
    POOL_NOT_WHOLE_RECORDS = 7, "pool not whole records";
    ENTRY_SIZE = 8, "fewer than 16 bytes remain for an entry, its length is under 16, or exceeds what remains";
    ENTRY_DATA_RANGE = 9, "key or VCN ends outside the entry";
    SUBNODE_WITHOUT_POOL = 10, "subnode wanted, pool empty";
    TOO_MANY_LEVELS = 11, "subnode wanted at level 8";
    ALLOWANCE_SPENT = 12, "allowance spent: as many records opened as allowed, or more";
    VCN_NOWHERE = 13, "VCN lies nowhere";
    SIGNATURE = 14, "signature not INDX";
    ALLOCATED_SIZE = 15, "24 + allocated size over record size";
    INDEX_SIZE = 16, "index size over allocated size";
    OWN_VCN = 17, "own VCN not the wanted one";
    KEY_UNREADABLE = 18, "key unreadable as a file name";
    TABLE_LENGTH = 19, "table not 65,536 units";
    NAME_TOO_LONG = 20, "name over 255 units";
    MARKS_TOO_SHORT = 21, "marks shorter than the number of records";
    REACHED_TWICE = 22, "record reached twice";
    NODE_END = 23, "node's end wrong";
    KEY_MISSING = 24, "entry without LAST_ENTRY has no key";
    NAME_FALLS = 25, "name less than the one listed before it";
}

impl fmt::Display for Refusal {
    fn fmt(&self, f: &mut fmt::Formatter<'_>) -> fmt::Result {
        write!(f, "refused {}: {}", self.number, self.text())
    }
}

impl core::error::Error for Refusal {}

#[cfg(test)]
mod tests {
    extern crate std;
    use super::{Refusal, REFUSALS};
    use crate::ffi;
    use std::format;

    const HEADER: &str = include_str!("../../include/ntfs_index.h");

    #[test]
    fn the_refusals_are_the_headers() {
        assert_eq!(REFUSALS.len(), HEADER.matches("NTFS_REFUSED_").count());
        for (name, number, text) in REFUSALS {
            let begins = format!("    NTFS_REFUSED_{name} = {number}");
            let line = HEADER.lines().find(|line| line.starts_with(&begins)).unwrap();
            assert!(line.ends_with(&format!(" /* {text} */")), "{line}");
            assert_eq!(format!("{}", Refusal::new(*number, 0)), format!("refused {number}: {text}"));
        }
    }

    /// The library writes as many numbers as the arrays hold.
    #[test]
    fn the_arrays_are_as_long_as_the_header_says() {
        for (name, length) in
            [("CURSOR", ffi::CURSOR_WORDS), ("ANSWER", ffi::ANSWER_WORDS), ("CHECK", ffi::CHECK_WORDS), ("NAME", ffi::NAME_WORDS)]
        {
            let line = format!("    NTFS_{name}_WORDS = {length}");
            assert!(HEADER.lines().any(|of| of.trim_end_matches(',') == line), "{line}");
        }
    }
}
