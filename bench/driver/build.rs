//! Links libfuzzydate.a, from the folder that FUZZYDATE_LIB names, and again where the folder or the archive is another.
fn main() {
    let folder = std::env::var("FUZZYDATE_LIB").unwrap();
    println!("cargo:rerun-if-env-changed=FUZZYDATE_LIB");
    println!("cargo:rerun-if-changed={folder}/libfuzzydate.a");
    println!("cargo:rustc-link-search=native={folder}");
    println!("cargo:rustc-link-lib=static=fuzzydate");
}
