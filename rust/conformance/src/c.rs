//! C programs compiled against the header and the proved archive.

use crate::files::{built, in_repository, Temporary};
use std::path::{Path, PathBuf};
use std::process::Command;

/// Warnings, all of them errors, that the header and the programs are to be free of.
pub const WARNINGS: [&str; 9] = [
    "-Wall",
    "-Wextra",
    "-Wpedantic",
    "-Wconversion",
    "-Wsign-conversion",
    "-Wshadow",
    "-Wundef",
    "-Wcast-qual",
    "-Werror",
];

/// The archive that users link.
pub fn archive() -> PathBuf {
    built("lib/libstraightener.a", "make")
}

/// Runs a command that is to end well, and answers what it printed.
pub fn done(command: &mut Command) -> String {
    let ended = command.output().unwrap_or_else(|error| panic!("{command:?}: {error}"));
    let (said, text) = (String::from_utf8_lossy(&ended.stderr), String::from_utf8_lossy(&ended.stdout));
    assert!(ended.status.success(), "{command:?} says:\n{said}{text}");
    text.into_owned()
}

/// A compiler with its flags, every warning an error, that finds the repository's header.
pub fn compiler(name: &str, flags: &[&str]) -> Command {
    let mut command = Command::new(name);
    command.args(flags).args(WARNINGS).arg("-I").arg(in_repository("include"));
    command
}

/// Compiles a program of `tests/c`, runs it, and answers what it printed.
pub fn printed(source: &str, name: &str, flags: &[&str]) -> String {
    let folder = Temporary::new(&format!("{source}{}", flags.concat()));
    let (source, program) = (Path::new("rust/conformance/tests/c").join(source), folder.path("program"));
    let source = in_repository(source.to_str().expect("a name"));
    done(compiler(name, flags).arg(source).arg(archive()).arg("-o").arg(&program));
    done(&mut Command::new(program))
}
