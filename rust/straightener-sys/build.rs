//! Finds the proved archive, libstraightener.a, and links it.

use std::env;
use std::fs;
use std::path::{Path, PathBuf};
use std::process::exit;

/// The variable that names the folder of an installed archive.
const FOLDER: &str = "STRAIGHTENER_LIB_DIR";

fn main() {
    println!("cargo:rerun-if-changed=build.rs");
    println!("cargo:rerun-if-env-changed={FOLDER}");
    let target = |what: &str| env::var(format!("CARGO_CFG_TARGET_{what}")).unwrap_or_default();
    if (target("ARCH").as_str(), target("OS").as_str()) != ("x86_64", "linux") {
        stop(&["The proved library is x86-64 Linux code, which this target cannot link."]);
    }
    let folder = folder();
    let archive = folder.join("libstraightener.a");
    println!("cargo:rerun-if-changed={}", archive.display());
    if !archive.is_file() {
        stop(&[
            &format!("The proved library {} is not there.", archive.display()),
            "Make it in the repository's folder by:   make",
            &format!("or name the folder of an installed one:  {FOLDER}=/usr/local/lib"),
        ]);
    }
    hold_version(&folder);
    println!("cargo:rustc-link-search=native={}", folder.display());
    println!("cargo:rustc-link-lib=static=straightener");
}

/// Says what is wrong and ends the build.
fn stop(lines: &[&str]) -> ! {
    lines.iter().for_each(|line| eprintln!("{line}"));
    exit(1)
}

/// The folder that the variable names, else the one that the repository's Makefile writes to.
fn folder() -> PathBuf {
    match env::var_os(FOLDER).filter(|folder| !folder.is_empty()) {
        Some(folder) if Path::new(&folder).is_absolute() => PathBuf::from(folder),
        Some(_) => stop(&[&format!("{FOLDER} must name a folder by its whole path, from / on.")]),
        None => {
            let package = env::var("CARGO_MANIFEST_DIR").expect("cargo names the package's folder");
            Path::new(&package).join("../../target/lib")
        }
    }
}

/// Holds the archive to this package's version, by the header that was made or installed with it: another
/// version may lay out its answers in another way, or mean something else by them.
fn hold_version(folder: &Path) {
    let version = env::var("CARGO_PKG_VERSION").expect("cargo names the package's version");
    let places = ["straightener.h", "../include/straightener.h", "../../include/straightener.h"];
    let headers = places.map(|place| folder.join(place));
    let Some(header) = headers.iter().find(|header| header.is_file()) else {
        stop(&[
            &format!("In {} there is none of {},", folder.display(), places.join(", ")),
            "and without the header the version of the library cannot be told.",
        ])
    };
    println!("cargo:rerun-if-changed={}", header.display());
    let text = fs::read_to_string(header).unwrap_or_default();
    if !text.contains(&format!("#define STRAIGHTENER_VERSION \"{version}\"\n")) {
        stop(&[
            &format!("The library beside {} is not of version {version}.", header.display()),
            "Make it anew in the repository's folder by:   make",
        ]);
    }
}
