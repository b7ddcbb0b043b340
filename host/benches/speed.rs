//! Times of the library beside those of plain Rust over the same slices, in nanoseconds an entry or a lookup.
//! A line each: what, how many, the library's time, plain Rust's. `tests/speed` makes tables of them.
#[path = "../tests/made/mod.rs"]
mod made;
#[path = "../tests/numbers/mod.rs"]
mod numbers;
#[path = "../tests/plain/mod.rs"]
mod plain;
#[path = "../tests/workload/mod.rs"]
mod workload;

use made::{table_t, Directory};
use ntfs_index::NtfsIndex;
use std::hint::black_box;
use std::time::Instant;
use workload::{rounds, workload, Workload, COUNTS};

/// The shortest time of each; they are run in turn, so that both meet the same machine.
fn compare(what: &str, count: usize, mut proved: impl FnMut(), mut plain: impl FnMut()) {
    let mut best = [u128::MAX; 2];
    for _ in 0..rounds(count) {
        let start = Instant::now();
        proved();
        let middle = Instant::now();
        plain();
        let end = Instant::now();
        best = [best[0].min((middle - start).as_nanos()), best[1].min((end - middle).as_nanos())];
    }
    println!("{what}\t{count}\t{:.2}\t{:.2}", best[0] as f64 / count as f64, best[1] as f64 / count as f64);
}

fn measure(count: usize) {
    let Workload { directory: Directory { root, pool, cluster }, there, absent } = workload(count);
    let table = table_t();
    let index = NtfsIndex::new(&root, &pool, cluster);
    let plain = plain::Index::new(&root, &pool, cluster);
    let (mut marks, mut other) = (vec![0; pool.len() / 4096], vec![0; pool.len() / 4096]);
    assert_eq!(index.check(&table, &mut marks), Ok(marks.len() as u64), "the directory passes, all its records reached");

    for (what, sought, found) in [("lookup of names that are there", &there, true), ("lookup of absent names", &absent, false)] {
        let mut finder = index.finder(&table, 7);
        compare(
            what,
            count,
            || sought.iter().for_each(|name| assert_eq!(finder.find_units(black_box(name)).is_some(), found)),
            || sought.iter().for_each(|name| assert_eq!(plain.find(&table, black_box(name), 7).unwrap().0.is_some(), found)),
        );
    }
    // Every entry is made use of, so that none is left out as unused.
    compare(
        "listing",
        count,
        || assert_eq!(black_box(index).entries(u64::MAX).map(|entry| black_box(entry.unwrap())).count(), count),
        || assert_eq!(black_box(plain).entries(u64::MAX).map(|entry| black_box(entry.unwrap())).count(), count),
    );
    compare(
        "check",
        count,
        || assert!(black_box(index).check(&table, &mut marks).is_ok()),
        || assert!(black_box(plain).check(&table, &mut other).is_ok()),
    );
}

fn main() {
    COUNTS.into_iter().for_each(measure);
}
