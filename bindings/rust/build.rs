//! Links `libservercape.a` and `libservercape_tested.a` from the folder that SERVERCAPE_LIB names. In a
//! checkout of the repository that may be left out: then `tools/built` says which folder has them,
//! `dist/`, or, with SERVERCAPE_FROM_SOURCE=1, the one in which it proves and builds them first.
use std::{env, path::Path, path::PathBuf, process};

fn main() {
    println!("cargo:rerun-if-env-changed=SERVERCAPE_LIB");
    println!("cargo:rerun-if-env-changed=SERVERCAPE_FROM_SOURCE");
    // documentation links nothing
    if env::var_os("DOCS_RS").is_some() {
        return;
    }
    let folder = env::var_os("SERVERCAPE_LIB").map(PathBuf::from).unwrap_or_else(of_checkout);
    println!("cargo:rustc-link-search=native={}", folder.display());
    for name in ["servercape", "servercape_tested"] {
        let library = folder.join(format!("lib{name}.a"));
        println!("cargo:rerun-if-changed={}", library.display());
        if !library.exists() {
            fail(&format!("{} is not there: let SERVERCAPE_LIB name the folder that has it", library.display()));
        }
        println!("cargo:rustc-link-lib=static={name}");
    }
}

/// The folder that `tools/built` of the repository names.
fn of_checkout() -> PathBuf {
    let built = Path::new(&env::var_os("CARGO_MANIFEST_DIR").unwrap()).join("../../tools/built");
    if !built.exists() {
        fail("let SERVERCAPE_LIB name the folder that has libservercape.a: `bindings/install` of the repository makes one");
    }
    let said = process::Command::new(&built).stderr(process::Stdio::inherit()).output();
    match said {
        Ok(said) if said.status.success() => PathBuf::from(String::from_utf8_lossy(&said.stdout).trim()),
        _ => fail("tools/built of the repository names no folder"),
    }
}

fn fail(why: &str) -> ! {
    eprintln!("servercape: {why}");
    process::exit(1)
}
