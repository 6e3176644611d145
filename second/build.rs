//! Links the proved library from NYO_LIB_DIR, or from the project's `target/native` if it has been built there.

use std::env;
use std::path::PathBuf;

const ARCHIVE: &str = "libnyolifuwe.a";

fn main() {
    println!("cargo::rustc-check-cfg=cfg(nyolifuwe)");
    println!("cargo::rerun-if-env-changed=NYO_LIB_DIR");
    let own = PathBuf::from(env::var_os("CARGO_MANIFEST_DIR").expect("set by cargo")).join("../target/native");
    let named = env::var_os("NYO_LIB_DIR").map(PathBuf::from);
    let must_be = named.is_some();
    let folder = named.unwrap_or(own);
    println!("cargo::rerun-if-changed={}", folder.join(ARCHIVE).display());
    if folder.join(ARCHIVE).exists() {
        println!("cargo::rustc-cfg=nyolifuwe");
        println!("cargo::rustc-link-search=native={}", folder.display());
        println!("cargo::rustc-link-lib=static=nyolifuwe");
    } else if must_be {
        println!("cargo::error=NYO_LIB_DIR names {}, which holds no {ARCHIVE}", folder.display());
    }
}
