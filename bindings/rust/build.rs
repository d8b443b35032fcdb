// Links libtag_c.a, which `./staticlib tag_c` writes. DRINGOLETH_LIB names another folder that has it.
use std::env;
use std::path::{Path, PathBuf};

fn main() {
    println!("cargo:rerun-if-env-changed=DRINGOLETH_LIB");
    let folder = match env::var_os("DRINGOLETH_LIB") {
        Some(folder) => PathBuf::from(folder),
        None => Path::new(env!("CARGO_MANIFEST_DIR")).join("../../target/staticlib"),
    };
    let archive = folder.join("libtag_c.a");
    if !archive.exists() {
        panic!(
            "{} is not there: run `./staticlib tag_c`, or name its folder in DRINGOLETH_LIB",
            archive.display()
        );
    }
    println!("cargo:rustc-link-search=native={}", folder.display());
    println!("cargo:rerun-if-changed={}", archive.display());
}
