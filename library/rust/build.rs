//! Says where libpintlecup.a is: in the folder that PINTLECUP_LIB names, or in lib/ of the folder that this crate was installed in.
fn main() {
    let installed = concat!(env!("CARGO_MANIFEST_DIR"), "/../../lib").to_string();
    let folder = std::env::var("PINTLECUP_LIB").unwrap_or(installed);
    println!("cargo:rerun-if-env-changed=PINTLECUP_LIB");
    println!("cargo:rustc-link-search=native={folder}");
}
