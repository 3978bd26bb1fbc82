//! Links the static library from the folder that `WEIMRUKAS_LIB_DIR` names; without it from `crates/capi/out` of the
//! repository, where `rt lib` writes it.
use std::env;
use std::path::{Path, PathBuf};
use std::process;

const VARIABLE: &str = "WEIMRUKAS_LIB_DIR";
/// The library as it is installed, and as it is built.
const NAMES: [&str; 2] = ["weimrukas", "capi"];

fn main() {
    println!("cargo:rerun-if-env-changed={VARIABLE}");
    let folder = folder();
    let file = |name: &str| folder.join(format!("lib{name}.a"));
    for name in NAMES {
        println!("cargo:rerun-if-changed={}", file(name).display());
    }
    let Some(name) = NAMES.into_iter().find(|name| file(name).exists()) else {
        explain(&folder);
        process::exit(1);
    };
    println!("cargo:rustc-link-search=native={}", folder.display());
    println!("cargo:rustc-link-lib=static={name}");
}

fn folder() -> PathBuf {
    match env::var_os(VARIABLE) {
        Some(folder) => PathBuf::from(folder),
        None => {
            let package = env::var("CARGO_MANIFEST_DIR").expect("set by cargo");
            Path::new(&package).join("../../crates/capi/out")
        }
    }
}

fn explain(folder: &Path) {
    let folder = folder.display();
    eprintln!("There is no libweimrukas.a and no libcapi.a in {folder}.");
    eprintln!("Set {VARIABLE} to the folder of the static library, such as PREFIX/lib after `tools/install PREFIX`,");
    eprintln!("or leave it unset and run `rt lib` in the folder `crates/capi` of the repository.");
}
