//! Lists a directory, checks it, and looks a name up in it.
//!
//! usage: cargo run --example lookup CAPTURE TABLE NAME
//! CAPTURE: a directory's root and records, as tools/stick-to-capture writes them. TABLE: the volume's upcase table, two bytes a unit.
//! Ends with 0 if the name was found, 1 if the directory is sound and does not hold it, 2 if something was refused or could not be read.
mod capture;

use capture::Directory;
use ntfs_index::{NtfsIndex, NtfsIndexEntry, Refusal};
use std::process::ExitCode;
use std::{env, error, fs};

/// As many records as a capture can hold may be opened.
const ALLOWANCE: u64 = 112;

/// The file reference and the name.
fn show(entry: &NtfsIndexEntry) -> String {
    let name = entry.key().and_then(Result::ok).map_or(String::new(), |name| name.to_string());
    let file = entry.file_reference();
    format!("{} {} {name}", file.file_record_number(), file.sequence_number())
}

/// Whether the name is there. Without a pass of the check "not found" would say nothing.
fn look_up(index: &NtfsIndex, records: usize, table: &[u16], name: &str) -> Result<bool, Refusal> {
    for entry in index.entries(ALLOWANCE) {
        println!("{}", show(&entry?));
    }
    index.check(table, &mut vec![0; records])?;
    let found = index.finder(table, ALLOWANCE).find(name).transpose()?;
    println!("{}", found.map_or("not found".into(), |entry| format!("found {}", show(&entry))));
    Ok(found.is_some())
}

fn run() -> Result<bool, Box<dyn error::Error>> {
    let words: Vec<String> = env::args().skip(1).collect();
    let [capture, table, name] = &words[..] else { return Err("usage: lookup CAPTURE TABLE NAME".into()) };
    let Directory { root, pool, cluster } = capture::read(&fs::read(capture)?).ok_or("no capture")?;
    let table: Vec<u16> = fs::read(table)?.chunks_exact(2).map(|pair| u16::from_le_bytes([pair[0], pair[1]])).collect();
    let index = NtfsIndex::new(&root, &pool, cluster);
    Ok(look_up(&index, pool.len() / 512, &table, name).inspect_err(|refusal| println!("refused {}", refusal.number()))?)
}

fn main() -> ExitCode {
    match run() {
        Ok(true) => ExitCode::SUCCESS,
        Ok(false) => ExitCode::from(1),
        Err(error) => {
            eprintln!("{error}");
            ExitCode::from(2)
        }
    }
}
