//! Tells cargo where the static library stands, and with the feature `cuts` the second one, and to link again when one changes; where there is
//! none, says what builds it.
//!
//! They are looked for in the folder that LAPURMIHI_LIB_DIR names, else in the repository's target/staticlib or, where the crate lies in an
//! installation, in the lib of that. A relative folder is taken from this crate's own, in which a build script runs: where cargo was started,
//! it is not told.

use std::env;
use std::path::{Path, PathBuf};

const VARIABLE: &str = "LAPURMIHI_LIB_DIR";
const BESIDE: &str = "../../target/staticlib";
const INSTALLED: &str = "share/lapurmihi/rust";
const BESIDE_INSTALLED: &str = "../../../lib";
const LIBRARY: &str = "liblapurmihi.a";
const CUTS: &str = "liblapurmihi_cuts.a";

fn main() {
    let own = env::var_os("CARGO_MANIFEST_DIR").expect("cargo names the crate's folder");
    let own = PathBuf::from(own).canonicalize().expect("the crate's folder is there");
    let named = env::var_os(VARIABLE).filter(|folder| !folder.is_empty());
    let beside = if own.ends_with(INSTALLED) { BESIDE_INSTALLED } else { BESIDE };
    let folder = own.join(named.unwrap_or_else(|| beside.into()));
    println!("cargo:rerun-if-env-changed={VARIABLE}");
    if let Ok(folder) = folder.canonicalize() {
        println!("cargo:rustc-link-search=native={}", folder.display());
    }
    ask_for(LIBRARY, "tools/library", &folder, &own);
    if env::var_os("CARGO_FEATURE_CUTS").is_some() {
        ask_for(CUTS, "tools/build cuts", &folder, &own);
    }
}

/// Has the crate linked again when a library changes; where the folder has it not, says what builds it.
fn ask_for(library: &str, builder: &str, folder: &Path, own: &Path) {
    let file = folder.join(library);
    println!("cargo:rerun-if-changed={}", file.display());
    if !file.is_file() {
        println!(
            "cargo::error=there is no {library} in {}: run {builder} in the repository, which builds it into target/staticlib, \
             or name the folder that has it in {VARIABLE} (a relative one is taken from {})",
            folder.display(),
            own.display(),
        );
    }
}
