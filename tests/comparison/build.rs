//! Links the archive that `make lib` writes, or the one in the folder that `WOSTHILE_LIB_DIR` says.

use std::env;
use std::path::{Path, PathBuf};

fn main() {
    println!("cargo:rerun-if-env-changed=WOSTHILE_LIB_DIR");
    let folder = match env::var_os("WOSTHILE_LIB_DIR") {
        Some(named) => PathBuf::from(named),
        None => Path::new(env!("CARGO_MANIFEST_DIR")).join("../../target/staticlib"),
    };
    let archive = folder.join("libwosthile.a");
    assert!(
        archive.is_file(),
        "{} is missing: run `make lib` first",
        archive.display()
    );
    // Without this line a new archive would not be linked again.
    println!("cargo:rerun-if-changed={}", archive.display());
    println!("cargo:rustc-link-search=native={}", folder.display());
    println!("cargo:rustc-link-lib=static=wosthile");
}
