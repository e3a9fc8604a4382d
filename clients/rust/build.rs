// Links the proved archive that `rt lib` writes in crates/exports.
fn main() {
    let folder = concat!(env!("CARGO_MANIFEST_DIR"), "/../../crates/exports/out");
    let archive = format!("{folder}/libexports.a");
    assert!(std::path::Path::new(&archive).exists(), "no {archive}: run `rt lib` in crates/exports first");
    println!("cargo:rustc-link-search=native={folder}");
    println!("cargo:rustc-link-lib=static=exports");
    println!("cargo:rerun-if-changed={archive}");
}
