//! Links the proved library: from the folder that RAZGWILH_LIB_DIR names, else the one that
//! `./library` made in the repository.

use std::env;
use std::path::{Path, PathBuf};
use std::process;

const PLACE: &str = "RAZGWILH_LIB_DIR";
const ARCHIVE: &str = "librazgwilh.a";

fn main() {
    println!("cargo:rerun-if-env-changed={PLACE}");
    let found = match env::var_os(PLACE) {
        Some(folder) => installed(Path::new(&folder)),
        None => built(),
    };
    let folder = found.unwrap_or_else(|missing| {
        eprintln!("razgwilh: {missing}");
        process::exit(1);
    });
    println!("cargo:rerun-if-changed={}", folder.join(ARCHIVE).display());
    println!("cargo:rustc-link-search=native={}", folder.display());
    println!("cargo:rustc-link-lib=static=razgwilh");
}

fn installed(folder: &Path) -> Result<PathBuf, String> {
    if !folder.is_absolute() {
        // Cargo and the linker would look from different folders.
        return Err(format!("{PLACE} is not an absolute path: {}", folder.display()));
    }
    if !folder.join(ARCHIVE).is_file() {
        return Err(format!("{PLACE} has no {ARCHIVE}: {}", folder.display()));
    }
    Ok(folder.to_path_buf())
}

fn built() -> Result<PathBuf, String> {
    let package = PathBuf::from(env::var_os("CARGO_MANIFEST_DIR").expect("cargo sets it"));
    let folder = package.join("../../target/staticlib");
    if !folder.join(ARCHIVE).is_file() {
        return Err(format!(
            "target/staticlib/{ARCHIVE} is missing: run `./library` at the root of the \
             repository, or set {PLACE} to the folder of an installed one"
        ));
    }
    Ok(folder)
}
