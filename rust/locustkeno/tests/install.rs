//! `tools/install` into a folder of its own, and a C and a C++ program built by what its pkg-config file says.

use std::path::{Path, PathBuf};
use std::process::{Command, Output};
use std::{env, fs};

fn here() -> &'static Path {
    Path::new(env!("CARGO_MANIFEST_DIR"))
}

/// A folder of this test, empty.
fn empty_folder(name: &str) -> PathBuf {
    let folder = Path::new(env!("CARGO_TARGET_TMPDIR")).join(name);
    let _ = fs::remove_dir_all(&folder);
    fs::create_dir_all(&folder).expect("a folder for the files");
    folder
}

fn install(words: &[&str]) -> Output {
    Command::new(here().join("../../tools/install"))
        .args(words)
        .output()
        .expect("the script runs")
}

/// What pkg-config says of the package below the folder.
fn package(folder: &Path, words: &[&str]) -> Vec<String> {
    let said = Command::new("pkg-config")
        .env("PKG_CONFIG_PATH", folder.join("lib/pkgconfig"))
        .args(words)
        .arg("locustkeno")
        .output()
        .expect("pkg-config is there");
    assert!(
        said.status.success(),
        "{}",
        String::from_utf8_lossy(&said.stderr)
    );
    let text = String::from_utf8(said.stdout).expect("words");
    text.split_whitespace().map(str::to_owned).collect()
}

fn built_and_run(folder: &Path, compiler: &str, language: &[&str]) {
    let program = folder.join(compiler);
    let built = Command::new(compiler)
        .args(language)
        .args(["-Wall", "-Wextra", "-pedantic", "-Werror"])
        .arg(here().join("tests/c/calls.c"))
        .args(["-x", "none"])
        .args(package(folder, &["--cflags", "--libs"]))
        .arg("-o")
        .arg(&program)
        .status()
        .expect("a compiler is there");
    assert!(built.success(), "{compiler} does not build the program");
    assert!(Command::new(&program).status().expect("it runs").success());
}

#[test]
fn programs_build_by_the_package() {
    let folder = empty_folder("installed");
    let prefix = folder.to_str().expect("a plain path");
    let done = install(&[prefix]);
    assert!(
        done.status.success(),
        "{}",
        String::from_utf8_lossy(&done.stderr)
    );
    assert_eq!(
        package(&folder, &["--modversion"]),
        [env!("CARGO_PKG_VERSION")],
        "the header's version is the crate's"
    );
    built_and_run(&folder, "cc", &["-std=c99", "-x", "c"]);
    built_and_run(&folder, "c++", &["-std=c++11", "-x", "c++"]);
    assert!(install(&["--uninstall", prefix]).status.success());
    assert!(!folder.join("lib/liblocustkeno.a").exists());
    assert!(!folder.join("include/locustkeno.h").exists());
}

#[test]
fn a_prefix_is_due() {
    assert_eq!(install(&[]).status.code(), Some(2));
    assert_eq!(install(&["not/from/the/root"]).status.code(), Some(2));
}
