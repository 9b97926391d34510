//! Links `libtable_text.a`, by default from the repository's `crates/table_text/out`, where
//! `rt lib` leaves it; TABLE_TEXT_DIR names another folder.

use std::env;
use std::path::PathBuf;

fn main() {
    println!("cargo:rerun-if-env-changed=TABLE_TEXT_DIR");
    let here = PathBuf::from(env::var_os("CARGO_MANIFEST_DIR").expect("set by cargo"));
    let dir = match env::var_os("TABLE_TEXT_DIR") {
        Some(dir) => PathBuf::from(dir),
        None => here.join("../crates/table_text/out"),
    };
    println!(
        "cargo:rerun-if-changed={}",
        dir.join("libtable_text.a").display()
    );
    println!("cargo:rustc-link-search=native={}", dir.display());
    println!("cargo:rustc-link-lib=static=table_text");
}
