//! Links the port, where it is asked for.

use std::env;

fn main() {
    println!("cargo::rerun-if-env-changed=TEVRULIG_LIBRARY");
    if env::var_os("CARGO_FEATURE_PORT").is_some() {
        let folder = env::var("TEVRULIG_LIBRARY").expect(
            "TEVRULIG_LIBRARY must name the folder of libhost.a and libtevrulig.a: build with differential/run",
        );
        println!("cargo::rustc-link-search=native={folder}");
        for library in ["host", "tevrulig"] {
            println!("cargo::rerun-if-changed={folder}/lib{library}.a");
            println!("cargo::rustc-link-lib=static={library}");
        }
    }
}
