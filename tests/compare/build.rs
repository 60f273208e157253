//! Links the static library that LIBROW names.

use std::env;
use std::path::PathBuf;

fn main() {
    println!("cargo::rerun-if-env-changed=LIBROW");
    let path = PathBuf::from(env::var_os("LIBROW").expect("LIBROW names the static library"));
    let path = path.canonicalize().expect("LIBROW names a file");
    println!("cargo::rerun-if-changed={}", path.display());
    println!("cargo::rustc-link-arg-bins={}", path.display());
}
