//! What is measured: a directory of so many names, the names to look up, and as many absent ones.
use crate::made::{directory, Directory, Sizes};
use crate::numbers::Numbers;

pub const COUNTS: [usize; 3] = [100, 1_000, 10_000];

pub struct Workload {
    pub directory: Directory,
    pub there: Vec<Vec<u16>>,
    pub absent: Vec<Vec<u16>>,
}

/// In an order that follows no node.
fn shuffled(mut names: Vec<Vec<u16>>) -> Vec<Vec<u16>> {
    let mut numbers = Numbers::new(1);
    for at in (1..names.len()).rev() {
        names.swap(at, numbers.below(at + 1));
    }
    names
}

pub fn workload(count: usize) -> Workload {
    let name = |n: usize, end: &str| format!("Profile-{n:05}.{end}").encode_utf16().collect();
    let names: Vec<Vec<u16>> = (0..count).map(|n| name(n, "bin")).collect();
    let absent = (0..count).map(|n| name(n, "bio")).collect();
    let directory = directory(&names, Sizes { record: 4096, cluster: 4096, root: 600, extra: 0 });
    Workload { directory, there: shuffled(names), absent: shuffled(absent) }
}

/// How often a run over so many entries is repeated; the shortest counts.
pub fn rounds(count: usize) -> usize {
    (300_000 / count).max(30)
}
