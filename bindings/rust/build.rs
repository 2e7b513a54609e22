// Links the archive: in the folder that FASCJOLDI_LIB names, or where `tools/archive` makes it in this repository.
fn main() {
    let here = std::env::var("CARGO_MANIFEST_DIR").expect("cargo names the folder of this crate");
    let folder = std::env::var("FASCJOLDI_LIB").unwrap_or(format!("{here}/../../crates/exports/out"));
    println!("cargo:rustc-link-search=native={folder}");
    println!("cargo:rustc-link-lib=static=exports");
    println!("cargo:rerun-if-env-changed=FASCJOLDI_LIB");
}
