//! Says where `libtower.a` is: `TOWER_LIB`, or `embed/out`, which `embed/build.py` makes.

fn main() {
    let own = concat!(env!("CARGO_MANIFEST_DIR"), "/../out");
    let folder = std::env::var("TOWER_LIB").unwrap_or_else(|_| own.to_string());
    println!("cargo:rustc-link-search=native={folder}");
    println!("cargo:rerun-if-env-changed=TOWER_LIB");
}
