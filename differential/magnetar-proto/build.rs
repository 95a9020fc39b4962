//! Writes the module file that reads the eight Rust source files from where they are.
//!
//! `MAGNETAR_SOURCE` names their folder; `differential/run` sets it. They must be the files of
//! `sources.sha256`.

use std::path::Path;
use std::process::Command;
use std::{env, fs};

const MODULES: [(&str, &str); 8] = [
    ("compress", "compress.rs"),
    ("error", "error.rs"),
    ("memory_limit", "memory_limit.rs"),
    ("pb", "pb/pulsar.proto.rs"),
    ("producer", "producer.rs"),
    ("time", "time.rs"),
    ("txn", "txn.rs"),
    ("types", "types.rs"),
];

fn main() {
    println!("cargo::rerun-if-env-changed=MAGNETAR_SOURCE");
    let folder = env::var("MAGNETAR_SOURCE")
        .expect("MAGNETAR_SOURCE must name the folder of producer.rs: build with differential/run");
    let folder = fs::canonicalize(folder).expect("MAGNETAR_SOURCE is no folder");
    check_sums(&folder);
    let mut text = String::new();
    for (module, file) in MODULES {
        let path = folder.join(file);
        println!("cargo::rerun-if-changed={}", path.display());
        text.push_str(&format!(
            "#[allow(warnings)]\n#[path = {path:?}]\npub mod {module};\n"
        ));
    }
    let out = env::var("OUT_DIR").expect("cargo sets OUT_DIR");
    fs::write(Path::new(&out).join("sources.rs"), text).expect("the target folder can be written");
}

fn check_sums(folder: &Path) {
    let here = env::var("CARGO_MANIFEST_DIR").expect("cargo sets CARGO_MANIFEST_DIR");
    let sums = Path::new(&here).join("../sources.sha256");
    println!("cargo::rerun-if-changed={}", sums.display());
    let status = Command::new("sha256sum")
        .args(["--check", "--quiet", "--strict"])
        .arg(&sums)
        .current_dir(folder)
        .status()
        .expect("sha256sum runs");
    assert!(
        status.success(),
        "the source files are not those of sources.sha256"
    );
}
