//! Compiles src/header.c, the header's functions for Rust, and links it with the proved card:
//! ../target/staticlib/libexports.a, built by tools/library exports. The sizes of card and tables come from the header.
use std::path::{Path, PathBuf};
use std::process::Command;

fn main() {
    let here = PathBuf::from(std::env::var("CARGO_MANIFEST_DIR").expect("run by cargo"));
    let out = PathBuf::from(std::env::var("OUT_DIR").expect("run by cargo"));
    let libraries = here.join("../target/staticlib");
    sizes(&here, &out);
    compile(&here, &out);
    println!("cargo:rustc-link-search=native={}", out.display());
    println!("cargo:rustc-link-lib=static=header");
    println!("cargo:rustc-link-search=native={}", libraries.display());
    println!("cargo:rustc-link-lib=static=exports");
    for file in [libraries.join("libexports.a"), here.join("../include/ancp_card.h"), here.join("src/header.c")] {
        println!("cargo:rerun-if-changed={}", file.display());
    }
}

/// OUT_DIR/sizes.rs, written by the header's own program.
fn sizes(here: &Path, out: &Path) {
    let program = out.join("sizes");
    run(cc(here).arg("-DSIZES").arg("-o").arg(&program).arg(here.join("src/header.c")));
    let written = Command::new(&program).output().expect("the program of sizes");
    std::fs::write(out.join("sizes.rs"), written.stdout).expect("sizes.rs");
}

/// OUT_DIR/libheader.a
fn compile(here: &Path, out: &Path) {
    let object = out.join("header.o");
    run(cc(here).arg("-c").arg("-o").arg(&object).arg(here.join("src/header.c")));
    run(Command::new("ar").arg("rcs").arg(out.join("libheader.a")).arg(&object));
}

fn cc(here: &Path) -> Command {
    let mut command = Command::new(std::env::var("CC").unwrap_or("cc".into()));
    command.args(["-std=c11", "-O2", "-Wall", "-Wextra", "-Werror", "-I"]).arg(here.join("../include"));
    command
}

fn run(command: &mut Command) {
    let status = command.status().unwrap_or_else(|e| panic!("{command:?}: {e}"));
    assert!(status.success(), "{command:?}: {status}");
}
