//! Links the archive that `tools/archive` writes: from the folder that CONCORDANCE_LIB_DIR names, or from the repository's target folder.
use std::env;
use std::path::PathBuf;

fn main() {
    println!("cargo:rerun-if-env-changed=CONCORDANCE_LIB_DIR");
    let folder = match env::var_os("CONCORDANCE_LIB_DIR") {
        Some(folder) => PathBuf::from(folder),
        None => {
            let here = env::var_os("CARGO_MANIFEST_DIR").expect("cargo names the package's folder");
            PathBuf::from(here).join("../target/staticlib")
        }
    };
    let archive = folder.join("libconcordance.a");
    println!("cargo:rerun-if-changed={}", archive.display());
    if !archive.is_file() {
        println!(
            "cargo:warning={} is missing: run `tools/archive` in the repository, or set CONCORDANCE_LIB_DIR to the folder that has it",
            archive.display()
        );
        std::process::exit(1);
    }
    println!("cargo:rustc-link-search=native={}", folder.display());
    println!("cargo:rustc-link-lib=static=concordance");
}
