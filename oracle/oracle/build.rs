//! Links the port's static libraries where a feature asks for one: `port` the benchmark's,
//! `service` the service's. `bin/bench` and `bin/bench-bindings` build them first.

fn main() {
    println!("cargo:rerun-if-changed=build.rs");
    let folder = concat!(env!("CARGO_MANIFEST_DIR"), "/../../target/staticlib");
    let libraries = [
        ("CARGO_FEATURE_PORT", "bench"),
        ("CARGO_FEATURE_PORT", "bench_reading"),
        ("CARGO_FEATURE_SERVICE", "voter_slots"),
    ];
    for (feature, library) in libraries {
        if std::env::var_os(feature).is_some() {
            println!("cargo:rerun-if-changed={folder}/lib{library}.a");
            println!("cargo:rustc-link-search=native={folder}");
            println!("cargo:rustc-link-lib=static={library}");
        }
    }
}
