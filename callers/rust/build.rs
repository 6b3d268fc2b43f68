//! Links libfcbench.a, from the folder that FCBENCH_LIB names, or from where `callers/build` leaves it.

use std::env;
use std::path::PathBuf;
use std::process;

fn main() {
    let here = PathBuf::from(env::var("CARGO_MANIFEST_DIR").expect("cargo sets it"));
    let folder = match env::var("FCBENCH_LIB") {
        Ok(folder) => PathBuf::from(folder),
        Err(_) => here.join("../../crates/embedding/out"),
    };
    println!("cargo:rerun-if-changed={}", folder.join("libfcbench.a").display());
    println!("cargo:rerun-if-env-changed=FCBENCH_LIB");
    if !folder.join("libfcbench.a").exists() {
        let folder = env::current_dir().map_or(folder.clone(), |from| from.join(&folder));
        let advice = "run callers/build, or set FCBENCH_LIB to the absolute path of its folder";
        eprintln!("libfcbench.a is not in {}: {advice}", folder.display());
        process::exit(1);
    }
    println!("cargo:rustc-link-search=native={}", here.join(&folder).display());
    println!("cargo:rustc-link-lib=static=fcbench");
}
