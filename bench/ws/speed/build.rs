//! Links the library's archive, whose folder is named by LIVES.
fn main() {
    println!("cargo:rerun-if-env-changed=LIVES");
    let folder = std::env::var("LIVES").expect("LIVES names the archive's folder");
    println!("cargo:rerun-if-changed={folder}/liblives.a");
    println!("cargo:rustc-link-search=native={folder}");
    println!("cargo:rustc-link-lib=static=lives");
}
