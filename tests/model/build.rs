//! With the feature `c_engine`: the proved library that `tests/library.sh host` builds.
fn main() {
    println!("cargo:rerun-if-changed=build.rs");
    if std::env::var_os("CARGO_FEATURE_C_ENGINE").is_some() {
        let folder = concat!(env!("CARGO_MANIFEST_DIR"), "/../../target/staticlib");
        let folder = std::env::var("LEDGER_LIBRARY").unwrap_or(folder.to_string());
        println!("cargo:rerun-if-env-changed=LEDGER_LIBRARY");
        println!("cargo:rerun-if-changed={folder}/libhost.a");
        println!("cargo:rustc-link-search=native={folder}");
        println!("cargo:rustc-link-lib=static=host");
    }
}
