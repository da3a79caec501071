//! Links libfontarisca.a where the feature `library` is on or FONTARISCA_LIB names the archive's folder; and the copy of it without the
//! check where the feature `unchecked` is on.

use std::env;
use std::path::PathBuf;
use std::process::Command;

/// Where the archive is looked for when the feature is on and no folder is named.
const USUAL_FOLDER: &str = "target/staticlib";

/// Where the copy without the check is.
const UNCHECKED_FOLDER: &str = "target/bench";

fn main() {
    println!("cargo::rerun-if-env-changed=FONTARISCA_LIB");
    println!("cargo::rerun-if-changed=build.rs");
    println!("cargo::rustc-check-cfg=cfg(linked)");
    let named = env::var("FONTARISCA_LIB").ok().filter(|name| !name.is_empty());
    let wanted = env::var_os("CARGO_FEATURE_LIBRARY").is_some();
    if named.is_some() || wanted {
        link(&named.unwrap_or_else(|| USUAL_FOLDER.to_string()), "fontarisca");
        println!("cargo::rustc-cfg=linked");
    }
    if env::var_os("CARGO_FEATURE_UNCHECKED").is_some() {
        link(UNCHECKED_FOLDER, "unchecked");
        println!("cargo::rustc-env=COMPILER={}", compiler());
    }
}

/// The compiler's name and version, for the benchmark's page.
fn compiler() -> String {
    let named = env::var("RUSTC").ok().and_then(|rustc| Command::new(rustc).arg("--version").output().ok());
    let text = named.map(|output| String::from_utf8_lossy(&output.stdout).into_owned()).unwrap_or_default();
    text.split(" (").next().unwrap_or_default().trim().to_string()
}

/// Links an archive from this folder: the name as it stands, or from this package's folder or one above it.
fn link(folder: &str, library: &str) {
    let package = PathBuf::from(env::var_os("CARGO_MANIFEST_DIR").expect("cargo names the package's folder"));
    let archive = format!("lib{library}.a");
    let mut places = package.ancestors().map(|above| above.join(folder));
    let found = places.find(|place| place.join(&archive).is_file());
    let place = found.unwrap_or_else(|| panic!("no {archive} in {folder}"));
    println!("cargo::rerun-if-changed={}", place.join(&archive).display());
    println!("cargo::rustc-link-search=native={}", place.display());
    println!("cargo::rustc-link-lib=static={library}");
}
