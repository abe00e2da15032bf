//! For a cargo project of your own: this file beside its Cargo.toml links the archive that `tools/archive` has written. PLANE_RECORD_FOLDER
//! names the folder that libexports.a is in; without it, it is the project's own.
fn main() {
    println!("cargo::rerun-if-env-changed=PLANE_RECORD_FOLDER");
    let own = || std::env::var("CARGO_MANIFEST_DIR").unwrap();
    let folder = std::env::var("PLANE_RECORD_FOLDER").unwrap_or_else(|_| own());
    println!("cargo::rustc-link-search=native={folder}");
    println!("cargo::rustc-link-lib=static=exports");
}
