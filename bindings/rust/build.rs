//! Tells the compiler where librezkundo.a is: in the folder that REZKUNDO_LIB names, else where this repository's
//! `tools/build rezkundo` puts it.

fn main() {
    println!("cargo:rerun-if-env-changed=REZKUNDO_LIB");
    let folder = std::env::var("REZKUNDO_LIB").unwrap_or_else(|_| {
        concat!(env!("CARGO_MANIFEST_DIR"), "/../../target/staticlib").to_owned()
    });
    println!("cargo:rerun-if-changed={folder}/librezkundo.a");
    println!("cargo:rustc-link-search=native={folder}");
}
