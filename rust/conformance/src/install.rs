//! The library installed into a folder of its own, and what a C compiler is told of it.

use crate::c::archive;
use crate::files::in_repository;
use std::env;
use std::fs;
use std::path::Path;
use std::process::Command;

/// The make command for a prefix, with no other setting from outside; the library is made already.
pub fn make(target: &str, prefix: &Path) -> Command {
    archive();
    let mut command = Command::new("make");
    command.env_clear().env("PATH", env::var_os("PATH").unwrap_or_default());
    command.arg(target).arg(format!("PREFIX={}", prefix.display())).current_dir(in_repository("."));
    command
}

/// The flags for C that the installed pkg-config file gives; read by hand where there is no pkg-config.
pub fn flags(prefix: &Path) -> Vec<String> {
    let folder = prefix.join("lib/pkgconfig");
    let asked = Command::new("pkg-config")
        .args(["--cflags", "--libs", "straightener"])
        .env("PKG_CONFIG_PATH", &folder)
        .output();
    let text = match asked {
        Ok(answer) => {
            assert!(answer.status.success(), "pkg-config: {}", String::from_utf8_lossy(&answer.stderr));
            String::from_utf8(answer.stdout).expect("text")
        }
        Err(_) => {
            println!("pkg-config is not installed: its file is read by hand");
            by_hand(&fs::read_to_string(folder.join("straightener.pc")).expect("a pkg-config file"))
        }
    };
    text.split_whitespace().map(str::to_string).collect()
}

/// The flags of a pkg-config file, its variables put in.
pub fn by_hand(file: &str) -> String {
    let value = |key: &str| file.lines().find_map(|line| line.strip_prefix(key)).expect("a key of the file");
    let flags = format!("{} {}", value("Cflags:"), value("Libs:"));
    flags.replace("${includedir}", value("includedir=")).replace("${libdir}", value("libdir="))
}
