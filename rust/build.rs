//! Links the archives of the map and of the C library's heap. They are in the folder that
//! `SWEEP_BPTREE_ARCHIVE` names, else in `archive` of the package, or else, in a checkout, in
//! `out/faces`, where `tools/faces build` makes them.
use std::env;
use std::path::PathBuf;

fn main() {
    println!("cargo:rerun-if-env-changed=SWEEP_BPTREE_ARCHIVE");
    let target = env::var("TARGET").unwrap();
    if !target.starts_with("x86_64-") || !target.contains("-linux-") {
        panic!("the archives are for x86_64 Linux, and not for {target}");
    }
    let here = PathBuf::from(env::var("CARGO_MANIFEST_DIR").unwrap());
    let folder = match env::var_os("SWEEP_BPTREE_ARCHIVE") {
        Some(folder) => here.join(folder),
        None if here.join("archive").is_dir() => here.join("archive"),
        None => here.join("../out/faces"),
    };
    for library in ["sweep_bptree", "sweep_bptree_heap"] {
        let archive = folder.join(format!("lib{library}.a"));
        if !archive.is_file() {
            panic!("there is no {}: run tools/faces build", archive.display());
        }
        println!("cargo:rerun-if-changed={}", archive.display());
        println!("cargo:rustc-link-lib=static={library}");
    }
    println!("cargo:rustc-link-search=native={}", folder.display());
}
