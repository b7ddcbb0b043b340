//! A directory's index: its listing, lookup in it, and its check.
use core::fmt;
use core::iter::FusedIterator;

use crate::ffi;
use crate::{NtfsIndexEntry, Refusal};

/// A directory as it is lent. Nothing is looked at before a listing, a lookup or a check.
#[derive(Clone, Copy)]
pub struct NtfsIndex<'d> {
    root: &'d [u8],
    pool: &'d [u8],
    cluster: usize,
}

impl<'d> NtfsIndex<'d> {
    /// `root` is the value of `$INDEX_ROOT`, `pool` the whole value of `$INDEX_ALLOCATION`, unused records too, with update
    /// sequences undone, or empty where the directory has none; `cluster` is the volume's cluster size in bytes. Where clusters are
    /// larger than index records, VCNs count blocks of 512 bytes: `cluster` is 512 there.
    pub const fn new(root: &'d [u8], pool: &'d [u8], cluster: usize) -> Self {
        Self { root, pool, cluster }
    }

    /// Lists every entry in the tree's order; after a pass of the check that is the order of names. At most `allowance` records are
    /// opened. `u64::MAX` is never spent, but a damaged directory may reach one record many times, and its listing may then be
    /// very long.
    ///
    /// ```
    /// # use ntfs_index::NtfsIndex;
    /// # let capture = include_bytes!(concat!(env!("CARGO_MANIFEST_DIR"), "/../examples/one-entry.capture"));
    /// # let root = &capture[3..139];
    /// let mut entries = NtfsIndex::new(root, &[], 4096).entries(64);
    /// assert_eq!(entries.next().unwrap()?.bytes().len(), 88);
    /// assert!(entries.next().is_none());
    /// assert_eq!(entries.opened(), 0);
    ///
    /// // What is no index is refused, with 01's number.
    /// let refusal = NtfsIndex::new(&root[..31], &[], 4096).entries(64).next().unwrap().unwrap_err();
    /// assert_eq!(refusal.number(), 1);
    /// assert_eq!(refusal.to_string(), "refused 1: root shorter than 32");
    /// # Ok::<(), ntfs_index::Refusal>(())
    /// ```
    pub fn entries(&self, allowance: u64) -> NtfsIndexEntries<'d> {
        let mut cursor = [0; ffi::CURSOR_WORDS];
        // SAFETY: the array is written whole.
        unsafe { ffi::ntfs_new_cursor(&mut cursor) };
        NtfsIndexEntries { index: *self, allowance, cursor, opened: 0, ended: false }
    }

    /// A finder of names under the volume's upcase table, 65,536 units. At most `allowance` records are opened in a lookup; 7 are
    /// enough for any tree that 01 allows.
    ///
    /// ```
    /// # use ntfs_index::NtfsIndex;
    /// # let capture = include_bytes!(concat!(env!("CARGO_MANIFEST_DIR"), "/../examples/one-entry.capture"));
    /// # let root = &capture[3..139];
    /// # let table: Vec<u16> = (0..=0xFFFF).map(|u| if (0x61..=0x7A).contains(&u) { u - 32 } else { u }).collect();
    /// let mut finder = NtfsIndex::new(root, &[], 4096).finder(&table, 7);
    /// assert_eq!(finder.find("a").unwrap()?, finder.find_units(&[0x41]).unwrap()?);
    /// assert!(finder.find("aa").is_none());
    /// assert_eq!(finder.find(&"a".repeat(256)).unwrap().unwrap_err().number(), 20);
    /// # Ok::<(), ntfs_index::Refusal>(())
    /// ```
    pub fn finder<'t>(&self, table: &'t [u16], allowance: u64) -> NtfsIndexFinder<'d, 't> {
        NtfsIndexFinder { index: *self, table, allowance, opened: 0 }
    }

    /// Checks the whole directory: the count of records reached, or the first fault. After a pass
    /// [`NtfsIndexFinder::find`], under the same table and with an allowance of 7 or more, finds a name of at
    /// most 255 units exactly if the listing holds an equal one.
    ///
    /// `marks` has a byte for each record of the pool, at least; `pool.len() / 512` are always enough. After a pass it is 1 where the record was reached and 0 where
    /// not; on 19, 1 to 7 and 21 no mark changes; on any other refusal every record's mark is 0. Bytes past the number of records
    /// never change.
    ///
    /// ```
    /// # use ntfs_index::NtfsIndex;
    /// # let capture = include_bytes!(concat!(env!("CARGO_MANIFEST_DIR"), "/../examples/one-entry.capture"));
    /// # let root = &capture[3..139];
    /// # let table: Vec<u16> = (0..=0xFFFF).map(|u| if (0x61..=0x7A).contains(&u) { u - 32 } else { u }).collect();
    /// let index = NtfsIndex::new(root, &[], 4096);
    /// assert_eq!(index.check(&table, &mut []), Ok(0));
    /// assert_eq!(index.check(&table[1..], &mut []).unwrap_err().number(), 19);
    /// ```
    pub fn check(&self, table: &[u16], marks: &mut [u8]) -> Result<u64, Refusal> {
        let mut answer = [0; ffi::CHECK_WORDS];
        // SAFETY: the slices are live; `marks` and `answer` are borrowed to be written, so they overlap nothing.
        unsafe {
            ffi::ntfs_check(
                self.root.as_ptr(),
                self.root.len(),
                self.pool.as_ptr(),
                self.pool.len(),
                self.cluster,
                table.as_ptr(),
                table.len(),
                marks.as_mut_ptr(),
                marks.len(),
                &mut answer,
            )
        };
        let [what, refusal, count] = answer;
        if what == ffi::PASSED {
            Ok(count)
        } else {
            Err(Refusal::new(refusal, count))
        }
    }

    /// What the numbers of a step or a lookup say.
    fn answer(&self, words: &[u64; ffi::ANSWER_WORDS]) -> Option<Result<NtfsIndexEntry<'d>, Refusal>> {
        let [what, refusal, opened, ..] = *words;
        match what {
            ffi::NONE => None,
            ffi::ENTRY => Some(Ok(NtfsIndexEntry::from_words(self.root, self.pool, words))),
            _ => Some(Err(Refusal::new(refusal, opened))),
        }
    }
}

/// The lengths of what is lent, not its bytes.
impl fmt::Debug for NtfsIndex<'_> {
    fn fmt(&self, f: &mut fmt::Formatter<'_>) -> fmt::Result {
        write!(f, "NtfsIndex(root of {} bytes, pool of {}, clusters of {})", self.root.len(), self.pool.len(), self.cluster)
    }
}

/// The entries of a directory, one after another. After a refusal there are no more: a caller that passes over errors must
/// not run for ever.
#[derive(Clone, Debug)]
pub struct NtfsIndexEntries<'d> {
    index: NtfsIndex<'d>,
    allowance: u64,
    cursor: [u64; ffi::CURSOR_WORDS],
    opened: u64,
    ended: bool,
}

impl NtfsIndexEntries<'_> {
    /// How many records have been opened so far.
    pub fn opened(&self) -> u64 {
        self.opened
    }
}

impl<'d> Iterator for NtfsIndexEntries<'d> {
    type Item = Result<NtfsIndexEntry<'d>, Refusal>;

    fn next(&mut self) -> Option<Self::Item> {
        if self.ended {
            return None;
        }
        let NtfsIndex { root, pool, cluster } = self.index;
        let mut answer = [0; ffi::ANSWER_WORDS];
        // SAFETY: the slices are live; `cursor` and `answer` are borrowed to be written, so they overlap nothing.
        unsafe {
            ffi::ntfs_step(root.as_ptr(), root.len(), pool.as_ptr(), pool.len(), cluster, self.allowance, &mut self.cursor, &mut answer)
        };
        let [what, _, opened, ..] = answer;
        self.opened = opened;
        self.ended = what != ffi::ENTRY;
        self.index.answer(&answer)
    }
}

impl FusedIterator for NtfsIndexEntries<'_> {}

/// Finds entries by name.
#[derive(Clone)]
pub struct NtfsIndexFinder<'d, 't> {
    index: NtfsIndex<'d>,
    table: &'t [u16],
    allowance: u64,
    opened: u64,
}

impl<'d> NtfsIndexFinder<'d, '_> {
    /// The entry of that name; none where there is none. Compares under the upcase table, so without regard to case.
    pub fn find(&mut self, name: &str) -> Option<Result<NtfsIndexEntry<'d>, Refusal>> {
        // One unit more than a name may have: a longer name is refused with 20 all the same.
        let mut units = [0; 256];
        let mut length = 0;
        for (place, unit) in units.iter_mut().zip(name.encode_utf16()) {
            *place = unit;
            length += 1;
        }
        self.find_units(&units[..length])
    }

    /// As [`find`](Self::find), for a name in UTF-16 units; they need not be valid UTF-16.
    pub fn find_units(&mut self, name: &[u16]) -> Option<Result<NtfsIndexEntry<'d>, Refusal>> {
        let NtfsIndex { root, pool, cluster } = self.index;
        let mut answer = [0; ffi::ANSWER_WORDS];
        // SAFETY: the slices are live and only read; `answer` is written and overlaps nothing.
        unsafe {
            ffi::ntfs_find(
                root.as_ptr(),
                root.len(),
                pool.as_ptr(),
                pool.len(),
                cluster,
                self.table.as_ptr(),
                self.table.len(),
                name.as_ptr(),
                name.len(),
                self.allowance,
                &mut answer,
            )
        };
        let [_, _, opened, ..] = answer;
        self.opened = opened;
        self.index.answer(&answer)
    }

    /// How many records the last lookup opened.
    pub fn opened(&self) -> u64 {
        self.opened
    }
}

impl fmt::Debug for NtfsIndexFinder<'_, '_> {
    fn fmt(&self, f: &mut fmt::Formatter<'_>) -> fmt::Result {
        write!(f, "NtfsIndexFinder({:?}, allowance {}, opened {})", self.index, self.allowance, self.opened)
    }
}
