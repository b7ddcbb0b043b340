//! NTFS directory indexes, read with proof: safe Rust over the proved archive.
//!
//! A directory is lent as three things: its root (the value of `$INDEX_ROOT`), its pool (all index records one after
//! another, update sequences undone; empty where it has none), and the volume's cluster size in bytes. Nothing is copied
//! and nothing is allocated; an entry is a part of the lent root or pool.
//!
//! What the archive answers is proved, for any bytes (see `README.md` of the repository). What this crate adds is not proved: it hands
//! slices over as pointers and lengths, and numbers back as types. It is kept thin for that reason, and tested.
//!
//! It links `target/staticlib/libc_api.a` of the repository, which `tools/native-staticlib c_api` makes, or the archive that the environment
//! variable `NTFS_INDEX_ARCHIVE` names by its absolute path.
//!
//! ```
//! use ntfs_index::NtfsIndex;
//!
//! # let capture = include_bytes!(concat!(env!("CARGO_MANIFEST_DIR"), "/../examples/one-entry.capture"));
//! # let root = &capture[3..139];
//! // The root of a directory with one file, "A"; it needs no pool.
//! let index = NtfsIndex::new(root, &[], 4096);
//!
//! for entry in index.entries(64) {
//!     let entry = entry?;
//!     assert_eq!(entry.key().unwrap()?.to_string(), "A");
//!     assert_eq!(entry.file_reference().file_record_number(), 41);
//! }
//!
//! // Check first: after a pass a name is found exactly if it is listed. Before, "not found" says nothing.
//! let table: Vec<u16> = (0..=0xFFFF).map(|u| if (0x61..=0x7A).contains(&u) { u - 32 } else { u }).collect();
//! let mut marks = [];
//! index.check(&table, &mut marks)?;
//!
//! // Under the volume's upcase table a lookup regards no case.
//! let found = index.finder(&table, 7).find("a").expect("it is there")?;
//! assert_eq!(found.file_reference().sequence_number(), 3);
//! assert!(index.finder(&table, 7).find("b").is_none());
//! # Ok::<(), ntfs_index::Refusal>(())
//! ```
#![no_std]
#![warn(missing_docs)]

mod entry;
mod ffi;
mod index;
mod refusal;

pub use entry::{Holder, NtfsFileName, NtfsFileReference, NtfsIndexEntry};
pub use index::{NtfsIndex, NtfsIndexEntries, NtfsIndexFinder};
pub use refusal::Refusal;
