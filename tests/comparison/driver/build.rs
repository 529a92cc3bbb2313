//! Names the compiler's version to the program.

use std::env::var;
use std::process::Command;

fn main() {
    println!("cargo:rerun-if-changed=build.rs");
    let rustc = var("RUSTC").expect("cargo names the compiler");
    let version = Command::new(rustc).arg("--version").output();
    let version = version.expect("the compiler tells its version").stdout;
    let version = String::from_utf8(version).expect("the version is text");
    println!("cargo:rustc-env=RUSTC_VERSION={}", version.trim());
}
