//! Lets main.rs link the Rust that the calls are ported from, which is built here. It is looked for in the folder that ORACLE names, or else beside the repository, in ../shared/oracle. Its own profile tests for
//! overflow; here it is built without, and at the same level as this crate.
use std::path::{Path, PathBuf};
use std::{env, process::Command};

fn main() {
    let here = PathBuf::from(env::var("CARGO_MANIFEST_DIR").unwrap());
    ported(&here);
}

fn ported(here: &Path) {
    println!("cargo:rerun-if-env-changed=ORACLE");
    let folder = env::var("ORACLE").map(PathBuf::from).unwrap_or_else(|_| here.join("../../shared/oracle"));
    let manifest = folder.join("rust/Cargo.toml");
    println!("cargo:rerun-if-changed={}", manifest.display());
    assert!(manifest.exists(), "{}: not there; ORACLE names the folder of the Rust", manifest.display());
    let target = PathBuf::from(env::var("OUT_DIR").unwrap()).join("oracle");
    let built = Command::new(env::var("CARGO").unwrap())
        .args(["build", "--release", "--offline", "--lib", "--manifest-path"])
        .arg(&manifest)
        .arg("--target-dir")
        .arg(&target)
        .env("CARGO_PROFILE_RELEASE_OPT_LEVEL", "3")
        .env("CARGO_PROFILE_RELEASE_OVERFLOW_CHECKS", "false")
        .env("CARGO_PROFILE_RELEASE_DEBUG_ASSERTIONS", "false")
        .status()
        .expect("cargo runs");
    assert!(built.success(), "{} does not build", manifest.display());
    println!("cargo:rustc-link-search=crate={}", target.join("release").display());
    println!("cargo:rustc-link-search=dependency={}", target.join("release/deps").display());
}
