//! Looks for stack probes that stand too late in the library (docs/TRUST.md) before anything is compared: such a library may
//! answer at random, and no proof would know.

use std::path::{Path, PathBuf};
use std::process::Command;
use std::{env, fs};

fn main() {
    let top = Path::new(env!("CARGO_MANIFEST_DIR")).join("../..");
    println!("cargo::rerun-if-env-changed=LOCUSTKENO_LIB");
    let folder = env::var_os("LOCUSTKENO_LIB").map_or(top.join("target/staticlib"), PathBuf::from);
    let archive = folder.join("liblocustkeno.a");
    println!("cargo::rerun-if-changed={}", archive.display());
    if fs::exists(&archive).unwrap_or(false) {
        let probes = Command::new(top.join("tools/probes"))
            .arg(&archive)
            .status();
        assert!(
            probes.expect("tools/probes runs").success(),
            "the library has a stack probe that does not stand at its function's entry"
        );
    }
}
