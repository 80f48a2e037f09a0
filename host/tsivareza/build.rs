//! Where the proved archive stands: `tools/archive` writes it, or the folder that
//! `TSIVAREZA_ARCHIVE` names has one for this machine's processor.
fn main() {
    let here = std::path::PathBuf::from(std::env::var("CARGO_MANIFEST_DIR").expect("cargo sets it"));
    let own = here.ancestors().nth(2).expect("the repository").join("target/staticlib");
    let lib = std::env::var("TSIVAREZA_ARCHIVE").map_or(own, Into::into);
    println!("cargo:rustc-link-search=native={}", lib.display());
    println!("cargo:rerun-if-changed={}", lib.join("libexports.a").display());
    println!("cargo:rerun-if-env-changed=TSIVAREZA_ARCHIVE");
}
