//! Links the archive that `bindings/library.sh` writes, or the one that MICRO_PRICE_LIB names.

use std::env;
use std::path::PathBuf;

fn main() {
    let archive = match env::var_os("MICRO_PRICE_LIB") {
        Some(named) => PathBuf::from(named),
        None => PathBuf::from(env::var_os("CARGO_MANIFEST_DIR").expect("cargo names the folder"))
            .join("../../target/staticlib/libmicro_price.a"),
    };
    println!("cargo:rerun-if-env-changed=MICRO_PRICE_LIB");
    println!("cargo:rerun-if-changed={}", archive.display());
    let Ok(archive) = archive.canonicalize() else {
        panic!(
            "no archive at {}: run `bindings/library.sh`, or set MICRO_PRICE_LIB",
            archive.display()
        );
    };
    let (Some(folder), Some(file)) = (archive.parent(), archive.file_name()) else {
        panic!("{} is no file", archive.display());
    };
    println!("cargo:rustc-link-search=native={}", folder.display());
    println!(
        "cargo:rustc-link-lib=static:+verbatim={}",
        file.to_string_lossy()
    );
}
