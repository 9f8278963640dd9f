//! Tells the linker the folder of the static library, which `rt lib` in crates/exports builds.

fn main() {
    let library = concat!(env!("CARGO_MANIFEST_DIR"), "/../../crates/exports/out");
    println!("cargo:rustc-link-search=native={}", library);
    println!("cargo:rerun-if-changed={}/libexports.a", library);
}
