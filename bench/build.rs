//! Links the archive that `rt lib` writes in crates/repeats, from the folder that REPEATS_LIB names, or from the checkout's own.
use std::env;
use std::path::PathBuf;

const ARCHIVE: &str = "librepeats.a";

fn main() {
    println!("cargo::rerun-if-env-changed=REPEATS_LIB");
    let folders = folders();
    for folder in &folders {
        println!("cargo::rerun-if-changed={}", folder.join(ARCHIVE).display());
    }
    match folders.iter().find(|folder| folder.join(ARCHIVE).is_file()) {
        Some(folder) => {
            println!("cargo::rustc-link-search=native={}", folder.display());
            println!("cargo::rustc-link-lib=static=repeats");
        }
        None => {
            let tried: Vec<String> = folders.iter().map(|folder| folder.display().to_string()).collect();
            println!("cargo::error={ARCHIVE} is not in {}: run `rt lib` in crates/repeats", tried.join(" or "));
        }
    }
}

/// Where the archive may lie, as for the bindings: a relative REPEATS_LIB is meant from the folder in which cargo was called.
fn folders() -> Vec<PathBuf> {
    let here = PathBuf::from(env::var_os("CARGO_MANIFEST_DIR").expect("cargo sets CARGO_MANIFEST_DIR"));
    let Some(named) = env::var_os("REPEATS_LIB").filter(|named| !named.is_empty()).map(PathBuf::from) else {
        return vec![here.join("../crates/repeats/out")];
    };
    if named.is_absolute() {
        return vec![named];
    }
    println!("cargo::rerun-if-env-changed=PWD");
    let called = env::var_os("PWD").map(|called| PathBuf::from(called).join(&named));
    let mut folders: Vec<PathBuf> = called.into_iter().chain([here.join(&named)]).collect();
    folders.dedup();
    folders
}
