// Links the archive that `./staticlib xxtea_c` writes.
use std::path::Path;

fn main() {
    let archives = Path::new(env!("CARGO_MANIFEST_DIR")).join("../target/staticlib");
    let archive = archives.join("libxxtea_c.a");
    if !archive.exists() {
        panic!("target/staticlib/libxxtea_c.a is not there: run `./staticlib xxtea_c` first");
    }
    println!("cargo:rustc-link-search=native={}", archives.display());
    println!("cargo:rerun-if-changed={}", archive.display());
}
