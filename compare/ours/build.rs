//! Links the static library that `rt lib` wrote in `crates/cabi`.

fn main() {
    let folder = concat!(env!("CARGO_MANIFEST_DIR"), "/../../crates/cabi/out");
    println!("cargo:rustc-link-search=native={folder}");
    println!("cargo:rustc-link-lib=static=cabi");
    println!("cargo:rerun-if-changed={folder}/libcabi.a");
}
