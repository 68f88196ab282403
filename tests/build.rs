//! Links target/staticlib/libjabulghi.a of the repository that this folder is in. All paths are relative, so that a
//! repository that is copied, with what was built in it, links its own library.
#[path = "src/linked.rs"]
mod linked;

fn main() {
    let library = format!("../{}", linked::LIBRARY);
    println!("cargo:rustc-link-search=native=../target/staticlib");
    println!("cargo:rustc-link-lib=static=jabulghi");
    // Where the library is not built yet, as when the sources alone are checked, nothing can be linked.
    let sum = if std::path::Path::new(&library).exists() { linked::sum(&library) } else { 0 };
    println!("cargo:rustc-env=LIBRARY_SUM={sum}");
    println!("cargo:rerun-if-changed={library}");
    println!("cargo:rerun-if-changed=src/linked.rs");
}
