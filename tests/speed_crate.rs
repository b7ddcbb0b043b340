//! Times of the crate ntfs 0.4.0 on the same directories, put on volumes by the oracle folder's harness.
//! `tests/speed` builds it in a copy of that folder. A line each: what, how many, nanoseconds an entry or a lookup.
mod made;
mod numbers;
#[path = "../../volume.rs"]
mod volume;
mod workload;

use made::table_t;
use nt_string::u16strle::U16StrLe;
use ntfs::structured_values::NtfsFileName;
use ntfs::{Ntfs, UpcaseOrd};
use std::hint::black_box;
use std::rc::Rc;
use std::time::Instant;
use volume::{geometry, Vol, DIR};
use workload::{rounds, workload, COUNTS};

fn shortest(what: &str, count: usize, mut run: impl FnMut()) {
    let mut best = u128::MAX;
    for _ in 0..rounds(count) {
        let start = Instant::now();
        run();
        best = best.min(start.elapsed().as_nanos());
    }
    println!("{what}\t{count}\t{:.2}", best as f64 / count as f64);
}

fn measure(count: usize) {
    let work = workload(count);
    let (root, pool, cluster) = (work.directory.root, work.directory.pool, work.directory.cluster as u64);
    let table: Vec<u8> = table_t().iter().flat_map(|unit| unit.to_le_bytes()).collect();
    let geometry = geometry(cluster, root.len()).unwrap();
    let mut volume = Vol::new(&geometry, cluster, &root, pool, true, Rc::new(table), u64::MAX);
    let mut ntfs = Ntfs::new(&mut volume).unwrap();
    ntfs.read_upcase_table(&mut volume).unwrap();
    let file = ntfs.file(&mut volume, DIR).unwrap();
    let index = file.directory_index(&mut volume).unwrap();

    for (what, names, found) in [("lookup of names that are there", &work.there, true), ("lookup of absent names", &work.absent, false)] {
        let names: Vec<Vec<u8>> = names.iter().map(|name| name.iter().flat_map(|unit| unit.to_le_bytes()).collect()).collect();
        shortest(what, count, || {
            for name in &names {
                let mut finder = index.finder();
                let wanted = U16StrLe(black_box(name));
                let answer = finder.find(&mut volume, |key: &NtfsFileName| wanted.upcase_cmp(&ntfs, &key.name()));
                assert_eq!(answer.transpose().unwrap().is_some(), found);
            }
        });
    }
    shortest("listing", count, || {
        let mut entries = index.entries();
        let mut listed = 0;
        while let Some(entry) = entries.next(&mut volume) {
            black_box(entry.unwrap());
            listed += 1;
        }
        assert_eq!(listed, count);
    });
}

fn main() {
    COUNTS.into_iter().for_each(measure);
}
