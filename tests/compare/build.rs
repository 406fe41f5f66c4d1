//! Passes on the numbers that include/venue.h defines. With the feature
//! `engine`, links the archive that ENGINE_ARCHIVE names.

use std::env;
use std::fs;
use std::path::PathBuf;

const HEADER: &str = "../../include/venue.h";

/// What the header defines a name as.
fn defined<'a>(header: &'a str, name: &str) -> &'a str {
    let mut lines = header.lines().map(str::split_whitespace);
    let mut words = lines
        .find(|words| words.clone().take(2).eq(["#define", name]))
        .expect("the header defines the name");
    words.nth(2).expect("a name is defined as a number")
}

fn main() {
    println!("cargo:rerun-if-changed={HEADER}");
    let header = fs::read_to_string(HEADER).expect("the header can be read");
    for name in ["VENUE_WORDS", "VENUE_LAYOUT", "VENUE_CENT", "VENUE_HALF_CENT", "VENUE_YES"] {
        println!("cargo:rustc-env={name}={}", defined(&header, name));
    }
    println!("cargo:rerun-if-changed=build.rs");
    println!("cargo:rerun-if-env-changed=ENGINE_ARCHIVE");
    if env::var_os("CARGO_FEATURE_ENGINE").is_none() {
        return;
    }
    let path = env::var_os("ENGINE_ARCHIVE").expect("ENGINE_ARCHIVE names libhost.a");
    let archive = PathBuf::from(path)
        .canonicalize()
        .expect("ENGINE_ARCHIVE names a file that exists");
    let directory = archive.parent().expect("a file lies in a directory");
    println!("cargo:rerun-if-changed={}", archive.display());
    println!("cargo:rustc-link-search=native={}", directory.display());
    println!("cargo:rustc-link-lib=static=host");
}
