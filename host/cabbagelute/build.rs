//! Links the proved reader's archive.

use std::path::PathBuf;

fn main() {
    println!("cargo::rerun-if-env-changed=CABBAGELUTE_LIB_DIR");
    let directory = match std::env::var_os("CABBAGELUTE_LIB_DIR") {
        Some(directory) => PathBuf::from(directory),
        None => PathBuf::from(env!("CARGO_MANIFEST_DIR")).join("../../target/staticlib"),
    };
    let archive = directory.join("libexport.a");
    println!("cargo::rerun-if-changed={}", archive.display());
    if std::env::var("CARGO_CFG_TARGET_ARCH").as_deref() != Ok("x86_64") {
        println!("cargo::error=libexport.a is x86-64 code: on another machine, see host/setup-x86-64");
    }
    if !archive.is_file() {
        println!(
            "cargo::error=there is no {}: run `host/archive`, or name the \
             directory that has libexport.a in CABBAGELUTE_LIB_DIR",
            archive.display()
        );
    }
    println!("cargo::rustc-link-search=native={}", directory.display());
    println!("cargo::rustc-link-lib=static=export");
}
