//! Links the proved archive: the one that NTFS_INDEX_ARCHIVE names, else the one that tools/native-staticlib made.
use std::path::PathBuf;
use std::{env, process};

fn main() {
    let made = PathBuf::from(env::var_os("CARGO_MANIFEST_DIR").unwrap()).join("../target/staticlib/libc_api.a");
    let archive = env::var_os("NTFS_INDEX_ARCHIVE").map_or(made, PathBuf::from);
    println!("cargo:rerun-if-env-changed=NTFS_INDEX_ARCHIVE");
    println!("cargo:rerun-if-changed={}", archive.display());
    if !archive.is_file() {
        eprintln!("no archive at {}: run tools/native-staticlib c_api, or set NTFS_INDEX_ARCHIVE to an absolute path", archive.display());
        process::exit(1);
    }
    // A name of its own, so that the search path cannot hand over another libc_api.a.
    let out = PathBuf::from(env::var_os("OUT_DIR").unwrap());
    std::fs::copy(&archive, out.join("libntfs_index_proved.a")).expect("the archive can be copied");
    println!("cargo:rustc-link-search=native={}", out.display());
    println!("cargo:rustc-link-lib=static=ntfs_index_proved");
}
