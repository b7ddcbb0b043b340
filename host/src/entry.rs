//! An entry as a part of the lent memory, and what it says of its file.
use core::fmt::{self, Write};

use crate::ffi;
use crate::Refusal;

/// The slice that holds an entry.
#[derive(Clone, Copy, Debug, PartialEq, Eq, Hash)]
pub enum Holder {
    /// The root.
    Root,
    /// The pool.
    Pool,
}

/// An entry of a directory: a part of the root or of the pool, never a copy.
#[derive(Clone, Copy, Debug, PartialEq, Eq)]
pub struct NtfsIndexEntry<'d> {
    bytes: &'d [u8],
    holder: Holder,
    offset: usize,
}

impl<'d> NtfsIndexEntry<'d> {
    /// The entry that the words of an answer name.
    pub(crate) fn from_words(root: &'d [u8], pool: &'d [u8], words: &[u64; ffi::ANSWER_WORDS]) -> Self {
        let [_, _, _, holder, offset, size] = *words;
        let (holder, held) = if holder == ffi::ROOT { (Holder::Root, root) } else { (Holder::Pool, pool) };
        let (offset, size) = (offset as usize, size as usize);
        Self { bytes: &held[offset..offset + size], holder, offset }
    }

    /// Its bytes.
    pub fn bytes(&self) -> &'d [u8] {
        self.bytes
    }

    /// The slice that holds it.
    pub fn holder(&self) -> Holder {
        self.holder
    }

    /// Where in that slice it begins.
    pub fn offset(&self) -> usize {
        self.offset
    }

    fn words(&self) -> [u64; ffi::NAME_WORDS] {
        let mut words = [0; ffi::NAME_WORDS];
        // SAFETY: the slice is live and only read, the array is written and overlaps nothing.
        unsafe { ffi::ntfs_entry_name(self.bytes.as_ptr(), self.bytes.len(), &mut words) };
        words
    }

    /// The file that the entry refers to.
    pub fn file_reference(&self) -> NtfsFileReference {
        let [_, _, record, sequence, ..] = self.words();
        NtfsFileReference { record, sequence: sequence as u16 }
    }

    /// The name in the entry's key; none where it has no key. Refused with 9 or 18 where there is no name to read.
    pub fn key(&self) -> Option<Result<NtfsFileName<'d>, Refusal>> {
        let [what, refusal, _, _, namespace, offset, units] = self.words();
        match what {
            ffi::NONE => None,
            ffi::NAMED => {
                let (from, size) = (offset as usize, 2 * units as usize);
                Some(Ok(NtfsFileName { bytes: &self.bytes[from..from + size], namespace: namespace as u8 }))
            }
            _ => Some(Err(Refusal::new(refusal, 0))),
        }
    }
}

/// A reference to a file record: its number and its sequence.
#[derive(Clone, Copy, Debug, PartialEq, Eq, Hash)]
pub struct NtfsFileReference {
    record: u64,
    sequence: u16,
}

impl NtfsFileReference {
    /// The number of the file's record.
    pub fn file_record_number(&self) -> u64 {
        self.record
    }

    /// The sequence, which tells an earlier use of the record from a later one.
    pub fn sequence_number(&self) -> u16 {
        self.sequence
    }
}

/// A file name: a part of the entry's key.
#[derive(Clone, Copy, Debug, PartialEq, Eq)]
pub struct NtfsFileName<'d> {
    bytes: &'d [u8],
    namespace: u8,
}

impl<'d> NtfsFileName<'d> {
    /// The name's bytes, two a unit, the low one first.
    pub fn bytes(&self) -> &'d [u8] {
        self.bytes
    }

    /// The name's UTF-16 units.
    pub fn units(&self) -> impl Iterator<Item = u16> + 'd {
        self.bytes.chunks_exact(2).map(|pair| u16::from_le_bytes([pair[0], pair[1]]))
    }

    /// The name's characters, with U+FFFD for a unit that is none.
    pub fn chars(&self) -> impl Iterator<Item = char> + 'd {
        char::decode_utf16(self.units()).map(|c| c.unwrap_or(char::REPLACEMENT_CHARACTER))
    }

    /// 0 POSIX, 1 Win32, 2 DOS, 3 both of the last.
    pub fn namespace(&self) -> u8 {
        self.namespace
    }
}

/// As [`chars`](NtfsFileName::chars).
impl fmt::Display for NtfsFileName<'_> {
    fn fmt(&self, f: &mut fmt::Formatter<'_>) -> fmt::Result {
        self.chars().try_for_each(|c| f.write_char(c))
    }
}
