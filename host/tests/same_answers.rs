//! Every answer of the library, through the C interface, beside that of plain Rust written from 01.
mod made;
mod numbers;
mod plain;
mod stored;

use made::{directory, table_t, Directory, Sizes};
use ntfs_index::{Holder, NtfsIndex, NtfsIndexEntry, Refusal};
use numbers::Numbers;
use std::collections::BTreeSet;

/// A damaged index can hold more entries than anyone would list.
const STEPS: usize = 2_000;

fn same_entry(entry: &NtfsIndexEntry, plain: &plain::Entry) -> bool {
    let holder = match plain.holder {
        plain::Holder::Root => Holder::Root,
        plain::Holder::Pool => Holder::Pool,
    };
    // The very part of the lent memory, not only the same bytes.
    let same_place =
        entry.bytes().as_ptr_range() == plain.bytes.as_ptr_range() && entry.holder() == holder && entry.offset() == plain.offset;
    let reference = entry.file_reference();
    let same_reference = (reference.file_record_number(), reference.sequence_number()) == plain.reference();
    let key = entry
        .key()
        .map(|key| key.map(|name| (name.bytes().as_ptr_range(), name.namespace())).map_err(|refusal| (refusal.number(), refusal.opened())));
    let plain_key =
        plain.file_name().map(|key| key.map(|(name, namespace)| (name.as_ptr_range(), namespace)).map_err(|number| (number, 0)));
    same_place && same_reference && key == plain_key
}

fn same_refusal(refusal: &Refusal, plain: &plain::Refused) -> bool {
    refusal.number() == plain.number && refusal.opened() == plain.opened
}

/// Lists both ways; how many entries there were, and the refusal at the end.
fn list(d: &Directory, allowance: u64) -> (usize, Option<u64>) {
    let mut proved = NtfsIndex::new(&d.root, &d.pool, d.cluster).entries(allowance);
    let mut plain = plain::Index::new(&d.root, &d.pool, d.cluster).entries(allowance);
    for count in 0..STEPS {
        match (proved.next(), plain.next()) {
            (Some(Ok(a)), Some(Ok(b))) => assert!(same_entry(&a, &b), "entry {count}: {a:?}, {b:?}"),
            (Some(Err(a)), Some(Err(b))) => {
                assert!(same_refusal(&a, &b), "{a:?}, {b:?}");
                assert!(proved.next().is_none(), "nothing comes after a refusal");
                return (count, Some(a.number()));
            }
            (None, None) => {
                assert_eq!(proved.opened(), plain.opened);
                return (count, None);
            }
            (a, b) => panic!("after {count} entries: {a:?}, {b:?}"),
        }
        assert_eq!(proved.opened(), plain.opened);
    }
    (STEPS, None)
}

/// Looks a name up both ways; 0 not found, 1 found, else 100 and the refusal.
fn find(d: &Directory, table: &[u16], name: &[u16], allowance: u64) -> u64 {
    let mut finder = NtfsIndex::new(&d.root, &d.pool, d.cluster).finder(table, allowance);
    let plain = plain::Index::new(&d.root, &d.pool, d.cluster).find(table, name, allowance);
    let proved = finder.find_units(name);
    match (proved, plain) {
        (Some(Ok(a)), Ok((Some(b), opened))) if same_entry(&a, &b) && finder.opened() == opened => 1,
        (None, Ok((None, opened))) if finder.opened() == opened => 0,
        (Some(Err(a)), Err(b)) if same_refusal(&a, &b) => 100 + a.number(),
        (a, b) => panic!("{name:?}: {a:?}, opened {}; {b:?}", finder.opened()),
    }
}

/// Checks both ways, marks too; 0 for a pass, else the refusal.
fn check(d: &Directory, table: &[u16], marks: &[u8]) -> u64 {
    let (mut proved_marks, mut plain_marks) = (marks.to_vec(), marks.to_vec());
    let proved = NtfsIndex::new(&d.root, &d.pool, d.cluster).check(table, &mut proved_marks);
    let plain = plain::Index::new(&d.root, &d.pool, d.cluster).check(table, &mut plain_marks);
    assert_eq!(proved_marks, plain_marks, "{proved:?}, {plain:?}");
    match (proved, plain) {
        (Ok(a), Ok(b)) if a == b => 0,
        (Err(a), Err(b)) if same_refusal(&a, &b) => a.number(),
        (a, b) => panic!("{a:?}, {b:?}"),
    }
}

fn all_marks(d: &Directory) -> Vec<u8> {
    vec![7; d.pool.len() / 512 + 3]
}

fn listed_names(d: &Directory) -> Vec<Vec<u16>> {
    let entries = NtfsIndex::new(&d.root, &d.pool, d.cluster).entries(64).take(STEPS).flatten();
    entries.filter_map(|entry| Some(entry.key()?.ok()?.units().collect())).collect()
}

/// The lines that the capture program prints.
fn text(d: &Directory) -> String {
    let mut lines = String::from("entries\n");
    let mut entries = NtfsIndex::new(&d.root, &d.pool, d.cluster).entries(64);
    for entry in &mut entries {
        let entry = entry.unwrap();
        let reference = entry.file_reference();
        let name = match entry.key() {
            Some(Ok(name)) => {
                let units: String = name.units().map(|unit| format!("{unit:04X}")).collect();
                format!("{} {}", name.namespace(), if units.is_empty() { "." } else { &units })
            }
            _ => "- -".into(),
        };
        lines += &format!("{} {} {name}\n", reference.file_record_number(), reference.sequence_number());
    }
    lines + &format!("opened {}\n", entries.opened())
}

#[test]
fn stored_directories() {
    let table = stored::table();
    let stored = stored::directories();
    assert!(stored.len() >= 13);
    for (name, d, expected) in stored {
        assert_eq!(text(&d), expected, "{name}");
        let (count, refusal) = list(&d, u64::MAX);
        assert_eq!(refusal, None, "{name}");
        assert_eq!(check(&d, &table, &all_marks(&d)), 0, "{name}");
        let names = listed_names(&d);
        assert_eq!(names.len(), count, "{name}");
        for units in &names {
            assert_eq!(find(&d, &table, units, 7), 1, "{name}");
            let folded: Vec<u16> = units.iter().map(|unit| table[usize::from(*unit)]).collect();
            assert_eq!(find(&d, &table, &folded, 7), 1, "{name}");
            let absent = [units, &[0x7E][..]].concat();
            assert_eq!(find(&d, &table, &absent, 7), u64::from(names.contains(&absent)), "{name}");
        }
    }
}

fn one_of<T: Copy>(numbers: &mut Numbers, choices: &[T]) -> T {
    choices[numbers.below(choices.len())]
}

/// Sorted names without repetition, most of them close to each other.
fn names(numbers: &mut Numbers, table: &[u16]) -> Vec<Vec<u16>> {
    let units = [0x41, 0x42, 0x61, 0x62, 0x5F, 0x30, 0xE4, 0xC4, 0x3B1, 0xD83D];
    let most = one_of(numbers, &[2, 6, 20]);
    let name = |numbers: &mut Numbers| (0..numbers.below(most) + 1).map(|_| one_of(numbers, &units)).collect::<Vec<u16>>();
    let mut names: Vec<Vec<u16>> = (0..numbers.below(80)).map(|_| name(numbers)).collect();
    let folded = |name: &Vec<u16>| name.iter().map(|unit| table[usize::from(*unit)]).collect::<Vec<u16>>();
    names.sort_by_key(folded);
    names.dedup_by_key(|name| folded(name));
    names
}

/// Changes a few bytes, most of them where the format keeps its numbers.
fn damage(numbers: &mut Numbers, d: &mut Directory) {
    let values = [0, 1, 2, 3, 4, 8, 15, 16, 23, 24, 66, 68, 88, 127, 128, 255];
    for _ in 0..numbers.below(4) {
        let in_pool = !d.pool.is_empty() && numbers.below(3) > 0;
        let held = if in_pool { &mut d.pool } else { &mut d.root };
        let place = match numbers.below(4) {
            0 => numbers.below(held.len()),
            1 => numbers.below(64),
            2 => numbers.below(held.len()) / 512 * 512 + numbers.below(64),
            _ => numbers.below(held.len()) / 8 * 8 + one_of(numbers, &[0, 1, 2, 3, 4]),
        };
        if let Some(byte) = held.get_mut(place) {
            *byte = if numbers.below(4) == 0 { numbers.next() as u8 } else { one_of(numbers, &values) };
        }
    }
    match numbers.below(40) {
        0 => d.root.truncate(numbers.below(d.root.len() + 1)),
        1 => d.pool.truncate(numbers.below(d.pool.len() + 1)),
        2 => d.pool.clear(),
        3 => d.cluster = one_of(numbers, &[0, 1, 256, 512, 1024, 4096, 65_536, 131_072, usize::MAX]),
        // The root's last VCN, most often to a record that is reached before.
        4 if d.root.len() > 8 => {
            let at = d.root.len() - 8;
            d.root[at] = numbers.below(4) as u8;
        }
        _ => {}
    }
}

/// The refusals met so far, 0 where there was none.
#[derive(Default)]
struct Seen {
    listing: BTreeSet<u64>,
    check: BTreeSet<u64>,
    find: BTreeSet<u64>,
}

/// Lists, checks and looks up both ways, with an allowance and marks of any length.
fn try_all(numbers: &mut Numbers, d: &Directory, table: &[u16], sought: &[Vec<u16>], seen: &mut Seen) {
    let allowance = one_of(numbers, &[0, 1, 2, 7, 64, u64::MAX]);
    seen.listing.insert(list(d, allowance).1.unwrap_or(0));
    let mut marks = all_marks(d);
    marks.truncate(one_of(numbers, &[1000, 1000, 1000, 1000, 1, 0]));
    let checked = check(d, table, &marks);
    seen.check.insert(checked);
    let folded = |name: &Vec<u16>| name.iter().map(|unit| table[usize::from(*unit)]).collect::<Vec<u16>>();
    let listed = listed_names(d);
    for name in listed.iter().chain(sought).take(40).chain([&vec![], &vec![0x41; 255], &vec![0x41; 256]]) {
        let found = find(d, table, name, allowance);
        seen.find.insert(found);
        if checked == 0 && allowance >= 7 && name.len() < 256 {
            let expected = listed.iter().any(|other| folded(other) == folded(name));
            assert_eq!(found, u64::from(expected), "found exactly if listed");
        }
    }
}

#[test]
fn damaged_directories() {
    let cases = std::env::var("CASES").map_or(60_000, |cases| cases.parse().unwrap());
    let tables = [table_t(), stored::table(), (0..=0xFFFF).collect(), vec![0x41; 65_536], vec![0; 65_535]];
    let stored = stored::directories();
    let mut seen = Seen::default();
    for case in 0..cases {
        let numbers = &mut Numbers::new(case);
        let table = &tables[one_of(numbers, &[0, 0, 0, 0, 0, 1, 1, 2, 3, 4])];
        let sought = names(numbers, &tables[0]);
        let mut d = if numbers.below(4) == 0 {
            stored[numbers.below(stored.len())].1.clone()
        } else {
            let record = one_of(numbers, &[512, 1024, 4096]);
            let extra = one_of(numbers, &[0, 0, 0, 0, 0, 0, 0, 4, 5, 6, 7, 8]);
            let sizes = Sizes { record, cluster: one_of(numbers, &[512, record]), root: one_of(numbers, &[200, 600, 4096]), extra };
            directory(&sought, sizes)
        };
        damage(numbers, &mut d);
        try_all(numbers, &d, table, &sought, &mut seen);
    }
    // Every refusal that the three can give was met.
    assert!(seen.listing.into_iter().eq(0..=17));
    assert!(seen.check.into_iter().eq((0..=25).filter(|number| ![12, 20].contains(number))));
    assert!(seen.find.into_iter().eq([0, 1].into_iter().chain(101..=120)));
}
