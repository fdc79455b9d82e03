// Links the archive that `rt lib` writes in crates/rathunxa.
use std::env;
use std::path::PathBuf;

fn main() {
    let here = PathBuf::from(env::var("CARGO_MANIFEST_DIR").expect("set by cargo"));
    let folder = here.join("../crates/rathunxa/out");
    println!("cargo:rerun-if-changed={}", folder.join("librathunxa.a").display());
    println!("cargo:rustc-link-search=native={}", folder.display());
    println!("cargo:rustc-link-lib=static=rathunxa");
}
