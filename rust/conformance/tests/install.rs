//! The library installed into a folder of its own, the example for C compiled against what is there, and archives
//! that are not to be linked.
#![cfg(feature = "library")]

use conformance::c::{archive, done, WARNINGS};
use conformance::files::{bytes_of, in_repository, read, Temporary};
use conformance::install::{by_hand, flags, make};
use conformance::level;
use std::fs;
use std::path::Path;
use std::process::Command;

/// What is installed below a prefix.
const INSTALLED: [&str; 3] =
    ["include/straightener.h", "lib/libstraightener.a", "lib/pkgconfig/straightener.pc"];

#[test]
fn the_example_is_compiled_against_what_was_installed() {
    let folder = Temporary::new("install");
    let prefix = folder.path("prefix");
    done(&mut make("install", &prefix));
    let [header, archive, pkg_config] = INSTALLED.map(|path| prefix.join(path));
    let installed = fs::read(&header).expect("a header");
    assert!(installed == bytes_of("include/straightener.h"), "the header has changed since the last make");
    assert!(archive.is_file());
    let file = fs::read_to_string(&pkg_config).expect("a pkg-config file");
    assert!(file.contains(&format!("\nVersion: {}\n", env!("CARGO_PKG_VERSION"))), "{file}");

    // The example is copied out of the repository, so that it finds no header but the installed one.
    let (source, program) = (folder.path("level.c"), folder.path("level"));
    fs::copy(in_repository("examples/level.c"), &source).expect("the example is there");
    done(Command::new("cc").args(WARNINGS).arg("-o").arg(&program).arg(&source).args(flags(&prefix)));
    level::held_to_its_cases(&|| Command::new(&program));

    done(&mut make("uninstall", &prefix));
    assert!(INSTALLED.iter().all(|path| !prefix.join(path).exists()), "uninstall leaves nothing");
}

#[test]
fn packages_are_staged_below_a_folder_of_their_own() {
    let stage = Temporary::new("stage");
    done(make("install", Path::new("/usr")).arg(format!("DESTDIR={}", stage.path("").display())));
    let file =
        fs::read_to_string(stage.path("usr/lib/pkgconfig/straightener.pc")).expect("a pkg-config file");
    let flags = by_hand(&file);
    assert_eq!(
        flags.split_whitespace().collect::<Vec<_>>(),
        ["-I/usr/include", "-L/usr/lib", "-lstraightener"]
    );
}

/// What cargo says of the package that links the archive in a folder; nothing where it can be linked.
fn complaint(archive_folder: &Path, built: &Path) -> Option<String> {
    let mut cargo = Command::new(env!("CARGO"));
    cargo.args(["build", "--quiet", "--offline", "--package", "straightener-sys", "--target-dir"]).arg(built);
    cargo.env("STRAIGHTENER_LIB_DIR", archive_folder).current_dir(in_repository("rust"));
    let ended = cargo.output().expect("cargo starts");
    (!ended.status.success()).then(|| String::from_utf8_lossy(&ended.stderr).into_owned())
}

#[test]
fn an_archive_of_another_or_an_unknown_version_is_not_linked() {
    let folder = Temporary::new("version");
    let (archives, include, built) =
        (folder.path("lib/x86_64-linux-gnu"), folder.path("include"), folder.path("built"));
    fs::create_dir_all(&archives).expect("a folder can be made");
    fs::create_dir_all(&include).expect("a folder can be made");
    let said = complaint(&archives, &built).expect("no archive");
    assert!(said.contains("libstraightener.a is not there"), "{said}");
    fs::copy(archive(), archives.join("libstraightener.a")).expect("the archive is there");
    let said = complaint(&archives, &built).expect("no header");
    assert!(said.contains("the version of the library cannot be told"), "{said}");
    let version = concat!("\"", env!("CARGO_PKG_VERSION"), "\"");
    let older = read("include/straightener.h").replace(version, "\"0.0.1\"");
    fs::write(archives.join("straightener.h"), older).expect("a header can be written");
    let said = complaint(&archives, &built).expect("another version");
    assert!(said.contains(concat!("is not of version ", env!("CARGO_PKG_VERSION"))), "{said}");
    fs::remove_file(archives.join("straightener.h")).expect("the header is there");
    fs::write(include.join("straightener.h"), bytes_of("include/straightener.h")).expect("a header");
    assert_eq!(complaint(&archives, &built), None);
}

#[test]
fn a_prefix_that_means_another_folder_elsewhere_is_refused() {
    let refused = make("install", Path::new("folder")).output().expect("make starts");
    let said = String::from_utf8_lossy(&refused.stderr).into_owned();
    assert!(!refused.status.success() && said.contains("PREFIX must begin with /"), "{said}");
}
