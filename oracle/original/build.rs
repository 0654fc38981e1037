//! Finds the original files, compares their SHA-256 with SHA256SUMS and lays them next to our stubs
//! in the build folder, where src/lib.rs includes them. Nothing of them is kept in the repository.

use std::path::{Path, PathBuf};
use std::{env, fs};

use sha2::{Digest, Sha256};

/// Where the original keeps the files that are compiled.
const SOURCES: &str = "crates/opc-consensus/src/";

/// The root of the included modules: the original's lints are not ours to settle.
const ROOT: &str =
    "#[allow(warnings)]\npub mod identity;\n#[allow(warnings)]\npub mod voter_slots;\n";

fn main() {
    if let Err(message) = prepare() {
        eprintln!("{message}");
        std::process::exit(1);
    }
}

fn prepare() -> Result<(), String> {
    println!("cargo:rerun-if-env-changed=OPC_SRC");
    let package = folder("CARGO_MANIFEST_DIR")?;
    let target = folder("OUT_DIR")?;
    fs::create_dir_all(target.join("voter_slots")).map_err(|error| error.to_string())?;
    lay_original_files(&package, &source_folder(&package), &target)?;
    lay_stubs(&package.join("stubs"), &target.join("voter_slots"))?;
    write(&target.join("original.rs"), ROOT.as_bytes())
}

/// The folder that OPC_SRC names (from the repository's root, where it is relative), else the
/// folder next to the repository.
fn source_folder(package: &Path) -> PathBuf {
    let root = package.join("../..");
    match env::var_os("OPC_SRC") {
        Some(path) if !path.is_empty() => root.join(path),
        _ => root.join("../shared/docs/src"),
    }
}

fn lay_original_files(package: &Path, source: &Path, target: &Path) -> Result<(), String> {
    let sums_file = package.join("SHA256SUMS");
    println!("cargo:rerun-if-changed={}", sums_file.display());
    let sums = String::from_utf8(read(&sums_file)?).map_err(|error| error.to_string())?;
    for line in sums.lines() {
        let (sum, name) = line
            .split_once("  ")
            .ok_or("SHA256SUMS: a line is not `sum  file`")?;
        let file = source.join(name);
        println!("cargo:rerun-if-changed={}", file.display());
        let bytes = read(&file).map_err(|error| {
            format!("original source not at hand ({error}); set OPC_SRC to a checkout of it")
        })?;
        if hex(&Sha256::digest(&bytes)) != sum {
            return Err(format!(
                "{name}: SHA-256 differs from SHA256SUMS; this is not the original"
            ));
        }
        let place = name
            .strip_prefix(SOURCES)
            .ok_or("SHA256SUMS: a file outside the original's sources")?;
        write(&target.join(place), &bytes)?;
    }
    Ok(())
}

fn lay_stubs(stubs: &Path, target: &Path) -> Result<(), String> {
    println!("cargo:rerun-if-changed={}", stubs.display());
    for name in [
        "admission.rs",
        "authentication.rs",
        "durable.rs",
        "traffic.rs",
        "transport.rs",
    ] {
        write(&target.join(name), &read(&stubs.join(name))?)?;
    }
    Ok(())
}

fn folder(variable: &str) -> Result<PathBuf, String> {
    env::var_os(variable)
        .map(PathBuf::from)
        .ok_or_else(|| format!("{variable} is not set"))
}

fn read(file: &Path) -> Result<Vec<u8>, String> {
    fs::read(file).map_err(|error| format!("{}: {error}", file.display()))
}

fn write(file: &Path, bytes: &[u8]) -> Result<(), String> {
    fs::write(file, bytes).map_err(|error| format!("{}: {error}", file.display()))
}

fn hex(bytes: &[u8]) -> String {
    bytes.iter().map(|byte| format!("{byte:02x}")).collect()
}
