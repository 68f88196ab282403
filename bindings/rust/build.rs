//! Finds the archive libjabulghi.a: in the folder JABULGHI_LIB_DIR, else in pkg-config's.
use std::{env, process::Command};

fn main() {
    println!("cargo:rerun-if-env-changed=JABULGHI_LIB_DIR");
    println!("cargo:rerun-if-env-changed=PKG_CONFIG_PATH");
    let said = |_| {
        let out = Command::new("pkg-config").args(["--variable=libdir", "jabulghi"]).output().ok()?;
        out.status.success().then(|| String::from_utf8_lossy(&out.stdout).trim().to_owned())
    };
    let folder = env::var("JABULGHI_LIB_DIR").map_or_else(said, Some);
    let folder =
        folder.expect("libjabulghi.a: set JABULGHI_LIB_DIR to its folder, or install it where pkg-config looks");
    println!("cargo:rerun-if-changed={folder}/libjabulghi.a");
    println!("cargo:rustc-link-search=native={folder}");
    println!("cargo:rustc-link-lib=static=jabulghi");
}
