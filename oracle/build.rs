//! Tells the compiler where the Rust text stands, so that it is taken in there and never copied.
//!
//! One file is also taken in a second time, with lines added that note what it does not return. That
//! text is made anew by each build and stands in the build's own folder.

use std::path::{Path, PathBuf};
use std::process::exit;
use std::{env, fs};

const VARIABLE: &str = "FERREUS_SRC";
const FILES: [&str; 4] = ["aca", "chebyshev", "traits", "utils"];

/// Lines of the cross approximation, and what is noted right after each of them.
const NOTED: [(&str, &str); 3] = [
    (
        "        if pivot_value.abs() < f64::EPSILON {",
        "            crate::notes::near_zero(&v_column_i);",
    ),
    (
        "        k += 1;",
        "        crate::notes::accepted(k, residual_norm, sum_k, &v_column_i, &u_column_j);",
    ),
    (
        "        if norm_u_v_2 <= tolerance * residual_norm {",
        "            crate::notes::reached();",
    ),
];

fn fail(message: String) -> ! {
    eprintln!("oracle: {message}");
    exit(1);
}

/// The text with the noting lines; each line that they follow must stand there exactly once.
fn noted(text: &str) -> String {
    for (line, _) in NOTED {
        let count = text.lines().filter(|&other| other == line).count();
        if count != 1 {
            fail(format!("aca.rs has {count} lines `{}`", line.trim()));
        }
    }
    let mut noted = String::new();
    for line in text.lines() {
        noted.push_str(line);
        noted.push('\n');
        for (_, note) in NOTED.iter().filter(|(after, _)| *after == line) {
            noted.push_str(note);
            noted.push('\n');
        }
    }
    noted
}

/// Writes the cross approximation that notes to where the library takes it in.
fn write_noted(folder: &Path) {
    let text = fs::read_to_string(folder.join("aca.rs"))
        .unwrap_or_else(|error| fail(format!("cannot read aca.rs: {error}")));
    let Some(out) = env::var_os("OUT_DIR").map(PathBuf::from) else {
        fail(String::from("the build has no folder of its own"));
    };
    fs::write(out.join("noted.rs"), noted(&text))
        .unwrap_or_else(|error| fail(format!("cannot write noted.rs: {error}")));
}

fn main() {
    println!("cargo:rerun-if-env-changed={VARIABLE}");
    println!("cargo:rerun-if-changed=build.rs");

    let Some(folder) = env::var_os(VARIABLE).map(PathBuf::from) else {
        fail(format!(
            "{VARIABLE} is not set; it must name the folder that holds chebyshev.rs"
        ));
    };
    // A relative path would be read from another folder by the compiler.
    if !folder.is_absolute() {
        fail(format!("{VARIABLE} must be an absolute path"));
    }

    for name in FILES {
        let path = folder.join(name).with_extension("rs");
        if !path.is_file() {
            fail(format!("{VARIABLE} has no file {name}.rs"));
        }
        println!("cargo:rerun-if-changed={}", path.display());
        println!(
            "cargo:rustc-env=TEXT_{}={}",
            name.to_uppercase(),
            path.display()
        );
    }
    write_noted(&folder);
}
