//! Finds the static library: in the folder that `BBFMM_LIB` names, else in the project's
//! target/staticlib.

use std::env;
use std::path::{Path, PathBuf};
use std::process::exit;

/// What the library is compiled for. Other targets call functions otherwise, or have other sizes.
const TARGET: [(&str, &str); 3] = [
    ("CARGO_CFG_TARGET_ARCH", "x86_64"),
    ("CARGO_CFG_TARGET_OS", "linux"),
    ("CARGO_CFG_TARGET_POINTER_WIDTH", "64"),
];

fn refuse(why: &str) -> ! {
    println!("cargo::error={why}");
    exit(1)
}

fn refuse_other_targets() {
    for (name, wanted) in TARGET {
        let given = env::var(name).unwrap_or_default();
        if given != wanted {
            refuse(&format!(
                "libbbfmm.a is for 64-bit Linux on x86_64, and {name} is {given}. Build with \
                 --target x86_64-unknown-linux-gnu; on an Arm machine bindings/rust/test shows how"
            ));
        }
    }
}

fn folder() -> PathBuf {
    match env::var_os("BBFMM_LIB") {
        Some(folder) => PathBuf::from(folder),
        None => Path::new(&env::var_os("CARGO_MANIFEST_DIR").expect("cargo names the folder"))
            .join("../../target/staticlib"),
    }
}

fn main() {
    println!("cargo::rerun-if-env-changed=BBFMM_LIB");
    refuse_other_targets();
    let folder = folder();
    let archive = folder.join("libbbfmm.a");
    println!("cargo::rerun-if-changed={}", archive.display());
    if !archive.is_file() {
        refuse(&format!(
            "there is no {}. Write it by `tools/library` in the project's folder, or let \
             BBFMM_LIB name the folder that has libbbfmm.a",
            archive.display()
        ));
    }
    println!("cargo::rustc-link-search=native={}", folder.display());
    println!("cargo::rustc-link-lib=static=bbfmm");
}
