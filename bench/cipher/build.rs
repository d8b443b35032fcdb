// Compiles the published C routine with gcc -O3.
use std::{env, path::PathBuf, process::Command};

fn run(program: &str, arguments: &[&str]) {
    let status = Command::new(program).args(arguments).status();
    assert!(status.is_ok_and(|s| s.success()), "{program} {arguments:?} failed");
}

fn main() {
    let out = PathBuf::from(env::var("OUT_DIR").unwrap());
    let object = out.join("published.o").display().to_string();
    let archive = out.join("libpublished.a").display().to_string();
    run("gcc", &["-O3", "-Wall", "-c", "published.c", "-o", &object]);
    run("ar", &["rcs", &archive, &object]);
    println!("cargo:rustc-link-search=native={}", out.display());
    println!("cargo:rerun-if-changed=published.c");
}
