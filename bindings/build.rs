//! Links the archive that `rt lib` writes in crates/bredumalt, from the folder that BREDUMALT_LIB names, or from the checkout's own.
use std::env;
use std::path::PathBuf;

const ARCHIVE: &str = "libbredumalt.a";

fn main() {
    println!("cargo::rerun-if-env-changed=BREDUMALT_LIB");
    let folders = folders();
    for folder in &folders {
        println!("cargo::rerun-if-changed={}", folder.join(ARCHIVE).display());
    }
    match folders.iter().find(|folder| folder.join(ARCHIVE).is_file()) {
        Some(folder) => {
            println!("cargo::rustc-link-search=native={}", folder.display());
            println!("cargo::rustc-link-lib=static=bredumalt");
        }
        None => {
            let tried: Vec<String> = folders.iter().map(|folder| folder.display().to_string()).collect();
            println!("cargo::error={ARCHIVE} is not in {}: run `rt lib` in crates/bredumalt", tried.join(" or "));
        }
    }
}

/// Where the archive may lie. A build script is started in the crate's folder, but BREDUMALT_LIB was set elsewhere: a relative one is
/// meant from the folder in which cargo was called. The shell leaves that in PWD. Where it does not, the crate's own is tried.
fn folders() -> Vec<PathBuf> {
    let here = PathBuf::from(env::var_os("CARGO_MANIFEST_DIR").expect("cargo sets CARGO_MANIFEST_DIR"));
    let Some(named) = env::var_os("BREDUMALT_LIB").filter(|named| !named.is_empty()).map(PathBuf::from) else {
        return vec![here.join("../crates/bredumalt/out")];
    };
    if named.is_absolute() {
        return vec![named];
    }
    println!("cargo::rerun-if-env-changed=PWD");
    let called = env::var_os("PWD").map(|called| PathBuf::from(called).join(&named));
    let mut folders: Vec<PathBuf> = called.into_iter().chain([here.join(&named)]).collect();
    folders.dedup();
    folders
}
