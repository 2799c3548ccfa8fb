//! Tells the compiler where the Rust text stands, so that it is taken in there and never copied.

use std::env;
use std::path::PathBuf;

fn main() {
    println!("cargo::rerun-if-env-changed=FERREUS_SRC");
    let Some(folder) = env::var_os("FERREUS_SRC").map(PathBuf::from) else {
        println!("cargo::error=FERREUS_SRC must name the folder that holds chebyshev.rs");
        return;
    };
    for name in ["aca", "chebyshev", "traits", "utils"] {
        let path = folder.join(name).with_extension("rs");
        println!("cargo::rerun-if-changed={}", path.display());
        println!("cargo::rustc-env=TEXT_{}={}", name.to_uppercase(), path.display());
    }
}
