//! The real directories that the repository holds as captures, and the upcase table of their volumes.
#[path = "../../examples/capture/mod.rs"]
mod capture;

use crate::made::Directory;
use std::fs;
use std::path::{Path, PathBuf};

fn folder() -> PathBuf {
    Path::new(env!("CARGO_MANIFEST_DIR")).join("../examples/real")
}

fn directory(path: &Path) -> Directory {
    let capture::Directory { root, pool, cluster } = capture::read(&fs::read(path).unwrap()).unwrap();
    Directory { root, pool, cluster }
}

/// Each directory with its name and the expected listing stored beside it.
pub fn directories() -> Vec<(String, Directory, String)> {
    let mut captures: Vec<PathBuf> = fs::read_dir(folder()).unwrap().map(|entry| entry.unwrap().path()).collect();
    captures.retain(|path| path.extension().is_some_and(|end| end == "capture"));
    captures.sort();
    let read = |path: PathBuf| {
        let name = path.file_stem().unwrap().to_string_lossy().into_owned();
        let expected = fs::read_to_string(path.with_extension("expected")).unwrap();
        (name, directory(&path), expected)
    };
    captures.into_iter().map(read).collect()
}

/// The upcase table of those volumes.
pub fn table() -> Vec<u16> {
    let bytes = fs::read(folder().join("upcase.bin")).unwrap();
    bytes.chunks_exact(2).map(|pair| u16::from_le_bytes([pair[0], pair[1]])).collect()
}
