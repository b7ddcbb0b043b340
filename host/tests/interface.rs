//! What the wrapper itself adds: types, ends, and refusals over memory of any shape.
mod made;

use made::{directory, table_t, Directory, Sizes};
use ntfs_index::{Holder, NtfsIndex, NtfsIndexEntry, Refusal};

fn three() -> Directory {
    let names: Vec<Vec<u16>> = ["A", "B", "C"].iter().map(|name| name.encode_utf16().collect()).collect();
    // A root of 200 bytes holds one entry, so the others lie in the pool.
    directory(&names, Sizes { record: 512, cluster: 512, root: 200, extra: 0 })
}

#[test]
fn entries_are_parts_of_what_is_lent() {
    let d = three();
    let index = NtfsIndex::new(&d.root, &d.pool, d.cluster);
    let entries: Vec<_> = index.entries(7).collect::<Result<_, _>>().unwrap();
    assert_eq!(entries.len(), 3);
    for entry in entries {
        let held = if entry.holder() == Holder::Root { &d.root } else { &d.pool };
        assert_eq!(entry.bytes().as_ptr(), held[entry.offset()..].as_ptr());
        let name = entry.key().unwrap().unwrap();
        assert!(entry.bytes().as_ptr_range().contains(&name.bytes().as_ptr()));
        assert_eq!(name.namespace(), 1);
    }
}

#[test]
fn a_listing_ends_after_a_refusal() {
    let mut d = three();
    d.pool[0] = b'X';
    let index = NtfsIndex::new(&d.root, &d.pool, d.cluster);
    let mut entries = index.entries(7);
    assert_eq!(entries.next().unwrap().unwrap_err().number(), 14);
    assert!(entries.next().is_none());
    // A caller that passes over errors comes to an end.
    assert_eq!(index.entries(u64::MAX).flatten().count(), 0);
}

#[test]
fn a_spent_allowance_is_a_refusal_and_not_an_absent_name() {
    let d = three();
    let table = table_t();
    let mut finder = NtfsIndex::new(&d.root, &d.pool, d.cluster).finder(&table, 0);
    assert_eq!(finder.find("a").unwrap().unwrap_err().number(), Refusal::ALLOWANCE_SPENT);
    let mut finder = NtfsIndex::new(&d.root, &d.pool, d.cluster).finder(&table, 1);
    assert_eq!(finder.find("a").unwrap().unwrap().file_reference().file_record_number(), 64);
    assert_eq!(finder.opened(), 1);
    assert!(finder.find("d").is_none());
}

#[test]
fn names_of_any_length_are_answered() {
    let d = three();
    let table = table_t();
    let index = NtfsIndex::new(&d.root, &d.pool, d.cluster);
    assert!(index.finder(&table, 7).find("").is_none());
    assert!(index.finder(&table, 7).find(&"d".repeat(255)).is_none());
    // 128 characters beyond the first plane are 256 units.
    for long in ["d".repeat(256), "d".repeat(100_000), "\u{1F50B}".repeat(128)] {
        assert_eq!(index.finder(&table, 7).find(&long).unwrap().unwrap_err().number(), 20);
        assert_eq!(index.finder(&table[1..], 7).find(&long).unwrap().unwrap_err().number(), 19);
    }
}

#[test]
fn text_is_utf_16_in_and_out() {
    let (name, lone) = ("Größe € \u{1F50B}", vec![0x41, 0xD83D]);
    let sizes = Sizes { record: 512, cluster: 512, root: 4096, extra: 0 };
    let d = directory(&[lone.clone(), name.encode_utf16().collect()], sizes);
    let table = table_t();
    let mut finder = NtfsIndex::new(&d.root, &d.pool, d.cluster).finder(&table, 7);
    let text = |entry: NtfsIndexEntry| entry.key().unwrap().unwrap().to_string();
    assert_eq!(text(finder.find(name).unwrap().unwrap()), name);
    assert_eq!(text(finder.find_units(&lone).unwrap().unwrap()), "A\u{FFFD}");
}

#[test]
fn debug_shows_lengths_and_not_bytes() {
    let d = three();
    let table = table_t();
    let finder = NtfsIndex::new(&d.root, &d.pool, d.cluster).finder(&table, 7);
    let index = format!("NtfsIndex(root of {} bytes, pool of {}, clusters of 512)", d.root.len(), d.pool.len());
    assert_eq!(format!("{finder:?}"), format!("NtfsIndexFinder({index}, allowance 7, opened 0)"));
}

#[test]
fn marks_tell_which_records_are_reached() {
    let mut d = three();
    let records = d.pool.len() / 512;
    d.pool.extend([0; 512]);
    let index = NtfsIndex::new(&d.root, &d.pool, d.cluster);
    let mut marks = vec![9; records + 2];
    assert_eq!(index.check(&table_t(), &mut marks), Ok(records as u64));
    assert_eq!(marks, [vec![1; records], vec![0, 9]].concat());
    assert_eq!(index.check(&table_t(), &mut marks[..records]).unwrap_err().number(), 21);
}

#[test]
fn nothing_at_all_is_refused() {
    assert_eq!(NtfsIndex::new(&[], &[], 0).entries(1).next().unwrap().unwrap_err().number(), 1);
    assert_eq!(NtfsIndex::new(&[], &[], 0).finder(&[], 1).find("a").unwrap().unwrap_err().number(), 19);
    assert_eq!(NtfsIndex::new(&[], &[], 0).check(&[], &mut []).unwrap_err().number(), 19);
}
