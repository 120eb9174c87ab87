//! Finds `libdoors.a`, the static library of the C doors, and has it linked.
use std::path::{Path, PathBuf};
use std::{env, process};

const VARIABLE: &str = "FURZEWRENCH_LIB_DIR";
const LIBRARY: &str = "libdoors.a";

fn main() {
    if target("ARCH") != "x86_64" || target("OS") != "linux" {
        fail("libdoors.a is for Linux on x86-64 alone");
    }
    let folders = library_folders();
    let Some(folder) = folders.iter().find(|folder| folder.join(LIBRARY).is_file()) else {
        fail(&nowhere(&folders))
    };
    println!("cargo:rerun-if-changed={}", folder.join(LIBRARY).display());
    println!("cargo:rustc-link-search=native={}", folder.display());
    println!("cargo:rustc-link-lib=static=doors");
}

/// The folder that the environment variable names; where it is not set, the repository's `target/staticlib`
/// and then the `lib` of a release archive, which has this crate as `rust/furzewrench`.
fn library_folders() -> Vec<PathBuf> {
    println!("cargo:rerun-if-env-changed={VARIABLE}");
    match env::var_os(VARIABLE) {
        Some(named) if Path::new(&named).is_absolute() => vec![PathBuf::from(named)],
        Some(named) => fail(&format!("{VARIABLE} is {named:?}: name the folder by an absolute path")),
        None => {
            let manifest = env::var_os("CARGO_MANIFEST_DIR").unwrap_or_default();
            ["../../target/staticlib", "../../lib"].map(|folder| Path::new(&manifest).join(folder)).into()
        }
    }
}

fn nowhere(folders: &[PathBuf]) -> String {
    let places: Vec<_> = folders.iter().map(|folder| folder.join(LIBRARY).display().to_string()).collect();
    format!(
        "there is no {}. Run `tools/build.sh doors` in the repository, which writes \
         target/staticlib/libdoors.a, or name the folder that has libdoors.a in {VARIABLE}",
        places.join(" and no ")
    )
}

fn target(part: &str) -> String {
    env::var(format!("CARGO_CFG_TARGET_{part}")).unwrap_or_default()
}

fn fail(message: &str) -> ! {
    eprintln!("furzewrench: {message}");
    process::exit(1);
}
