//! Links the port's libraries, which `bench/run` builds or is given.

use std::env;

fn main() {
    println!("cargo::rerun-if-env-changed=TEVRULIG_LIBRARY");
    let folder = env::var("TEVRULIG_LIBRARY")
        .expect("TEVRULIG_LIBRARY must name the folder of the libraries: build with bench/run");
    println!("cargo::rustc-link-search=native={folder}");
    for library in ["host", "tevrulig"] {
        println!("cargo::rerun-if-changed={folder}/lib{library}.a");
        println!("cargo::rustc-link-lib=static={library}");
    }
}
