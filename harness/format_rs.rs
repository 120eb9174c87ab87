// Included by both build scripts: hands format.rs, which is not part of this repository, to the compiler
// unchanged.
use std::{env, fs, path::PathBuf, process::Command};

fn main() {
    println!("cargo:rerun-if-env-changed=FORMAT_RS");
    let found = Command::new("../find_format.sh").output().expect("find_format.sh runs");
    if !found.status.success() {
        // cargo shows this line and a short one of its own, and fails; by another status it would show many
        // more
        return println!("cargo::error={}", String::from_utf8_lossy(&found.stderr).trim_end());
    }
    let source = String::from_utf8(found.stdout).expect("a path in UTF-8");
    let source = source.trim_end_matches('\n');
    println!("cargo:rerun-if-changed={source}");
    let target = PathBuf::from(env::var("OUT_DIR").unwrap()).join("format.rs");
    fs::copy(source, target).unwrap_or_else(|e| panic!("{source}: {e}"));
}
