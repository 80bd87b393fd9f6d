//! The C header as C and C++ programs use it: `tests/c/calls.c`, compiled with every warning as an error, linked with the library and run.

use std::path::{Path, PathBuf};
use std::process::Command;
use std::{env, fs};

/// The folder of the static library, as `build.rs` finds it.
fn library(here: &Path) -> PathBuf {
    env::var_os("LOCUSTKENO_LIB").map_or(here.join("../../target/staticlib"), PathBuf::from)
}

fn compiled_and_run(compiler: &str, words: &[&str], name: &str) {
    let here = Path::new(env!("CARGO_MANIFEST_DIR"));
    let folder = Path::new(env!("CARGO_TARGET_TMPDIR"));
    fs::create_dir_all(folder).expect("a folder for the program");
    let program = folder.join(name);
    let built = Command::new(compiler)
        .args(words)
        .args(["-O1", "-Wall", "-Wextra", "-pedantic", "-Werror", "-I"])
        .arg(here.join("../../include"))
        .arg(here.join("tests/c/calls.c"))
        .args(["-x", "none"])
        .arg(library(here).join("liblocustkeno.a"))
        .arg("-o")
        .arg(&program)
        .status()
        .expect("a C compiler is there");
    assert!(
        built.success(),
        "{compiler} refuses the header or the program"
    );
    let ran = Command::new(&program).output().expect("the program runs");
    assert!(
        ran.status.success(),
        "{}",
        String::from_utf8_lossy(&ran.stdout)
    );
}

#[test]
fn as_c() {
    compiled_and_run("cc", &["-std=c99", "-x", "c"], "calls_c");
}

#[test]
fn as_cpp() {
    compiled_and_run("c++", &["-std=c++11", "-x", "c++"], "calls_cpp");
}
