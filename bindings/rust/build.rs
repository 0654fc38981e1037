//! Links `libvoter_slots.a`: from the folder that `VOTER_SLOTS_LIB` names, else from this
//! repository's target/staticlib.

use std::path::PathBuf;
use std::{env, process};

fn main() {
    println!("cargo:rerun-if-changed=build.rs");
    println!("cargo:rerun-if-env-changed=VOTER_SLOTS_LIB");
    // Pages of documentation are made without the archive.
    if env::var_os("DOCS_RS").is_some() {
        return;
    }
    let own = concat!(env!("CARGO_MANIFEST_DIR"), "/../../target/staticlib");
    let folder = env::var_os("VOTER_SLOTS_LIB").map_or(PathBuf::from(own), PathBuf::from);
    let archive = folder.join("libvoter_slots.a");
    if !archive.is_file() {
        eprintln!(
            "voter-slots: there is no {}.\n\
             Build it with `scripts/proving target/library.log voter_slots` in the root of the repository of voter slots,\n\
             or let VOTER_SLOTS_LIB name the folder that has libvoter_slots.a.",
            archive.display()
        );
        process::exit(1);
    }
    println!("cargo:rerun-if-changed={}", archive.display());
    println!("cargo:rustc-link-search=native={}", folder.display());
    println!("cargo:rustc-link-lib=static=voter_slots");
}
