//! Says where the archive is that `scripts/archive rounds` leaves.

use std::env;

fn main() {
    let here = env::var("CARGO_MANIFEST_DIR").expect("cargo sets it");
    let folder = format!("{here}/../target/staticlib");
    println!("cargo:rustc-link-search=native={folder}");
    println!("cargo:rerun-if-changed={folder}/librounds.a");
}
