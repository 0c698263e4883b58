//! Brings the customer's `src/irq/wait.rs` in where it lies, from HARBOR_SRC or from the folder beside the checkout.
use std::{env, fs, path::PathBuf};

fn main() {
    println!("cargo:rerun-if-env-changed=HARBOR_SRC");
    let here = PathBuf::from(env::var("CARGO_MANIFEST_DIR").unwrap());
    let root = match env::var("HARBOR_SRC") {
        Ok(dir) => PathBuf::from(dir),
        Err(_) => here.join("../../../shared/docs/src"),
    };
    let file = root.join("src/irq/wait.rs");
    println!("cargo:rerun-if-changed={}", file.display());
    let file = file.canonicalize().unwrap_or_else(|e| panic!("the customer's Rust is not here ({}: {e}); set HARBOR_SRC", file.display()));
    let text = format!("#[path = {:?}]\npub mod wait;\n", file.to_str().expect("a path that can be written down"));
    fs::write(PathBuf::from(env::var("OUT_DIR").unwrap()).join("irq.rs"), text).unwrap();
}
