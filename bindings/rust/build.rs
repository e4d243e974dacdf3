//! Links the static library of the crate `meshnode_c`, and the heap calls that it takes of C. `MESHNODE_LIB` and `MESHNODE_HEAP` name them.

use std::path::PathBuf;

fn link(variable: &str, name: &str) {
    println!("cargo:rerun-if-env-changed={variable}");
    let place = std::env::var(variable).unwrap_or_else(|_| panic!("{variable} names no {name}"));
    let place = PathBuf::from(place);
    println!("cargo:rerun-if-changed={}", place.display());
    let folder = place.parent().expect("a file in a folder");
    println!("cargo:rustc-link-search=native={}", folder.display());
    let stem = place.file_stem().and_then(|it| it.to_str()).expect("a name");
    println!("cargo:rustc-link-lib=static={}", stem.strip_prefix("lib").unwrap_or(stem));
}

fn main() {
    link("MESHNODE_LIB", "libmeshnode_c.a");
    link("MESHNODE_HEAP", "liblibc_c.a");
}
