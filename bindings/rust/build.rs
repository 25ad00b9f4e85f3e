//! Finds the C library of Feksroum, the first that is there of:
//!
//! 1. the folder that `FEKSROUM_LIB_DIR` names, with `libfeksroum.a` or `libfeksroum.so`;
//! 2. what `pkg-config` finds, at `PKG_CONFIG_PATH` too, where it is not for another target;
//! 3. the archive that `make -C bindings` builds beside this crate, in a clone of the repository.
//!
//! `FEKSROUM_STATIC` wants the archive, and `FEKSROUM_STATIC=0` the shared library; else a folder's archive goes first, and of
//! `pkg-config` the shared library is taken. Where none is, the linker looks in its own folders.

use std::env;
use std::fs;
use std::path::{Path, PathBuf};
use std::process::{exit, Command};

const NAME: &str = "feksroum";

fn main() {
    println!("cargo:rerun-if-changed=build.rs");
    for name in ["FEKSROUM_LIB_DIR", "FEKSROUM_STATIC", "PKG_CONFIG", "PKG_CONFIG_PATH", "PKG_CONFIG_LIBDIR", "PKG_CONFIG_ALLOW_CROSS"] {
        println!("cargo:rerun-if-env-changed={name}");
    }
    if let Some(folder) = env::var_os("FEKSROUM_LIB_DIR") {
        link_folder(Path::new(&folder));
    } else if let Some(words) = pkg_config() {
        link_words(&words);
    } else {
        let manifest = env::var_os("CARGO_MANIFEST_DIR").map_or_else(PathBuf::new, PathBuf::from);
        link_folder(&manifest.join("../out"));
    }
}

/// Whether the archive is wanted, or the shared library; none where it is left open.
fn wants_archive() -> Option<bool> {
    env::var_os("FEKSROUM_STATIC").map(|value| value != "0")
}

/// Links what lies in a folder, and watches that alone.
fn link_folder(folder: &Path) {
    let archive = folder.join(format!("lib{NAME}.a"));
    let shared = folder.join(format!("lib{NAME}.so"));
    let is_archive = wants_archive().unwrap_or_else(|| archive.exists());
    let library = if is_archive { &archive } else { &shared };
    if library.exists() {
        println!("cargo:rerun-if-changed={}", library.display());
        println!("cargo:rustc-link-search=native={}", folder.display());
        check_version(folder);
    } else {
        println!(
            "cargo:warning={} is not there: name a folder by FEKSROUM_LIB_DIR; or install the library by `make -C bindings install PREFIX=..` \
             and name PREFIX/lib/pkgconfig by PKG_CONFIG_PATH; or build it beside the crate by `make -C bindings`",
            library.display()
        );
    }
    println!("cargo:rustc-link-lib={}{NAME}", if is_archive { "static=" } else { "" });
}

/// Ends where the file for `pkg-config` that lies beside a library says another version than this crate is for.
fn check_version(folder: &Path) {
    let files = [folder.join(format!("{NAME}.pc")), folder.join(format!("pkgconfig/{NAME}.pc"))];
    let Some(text) = files.iter().find_map(|file| fs::read_to_string(file).ok()) else { return };
    let Some(version) = text.lines().find_map(|line| line.strip_prefix("Version: ")) else { return };
    let wanted = format!("{}.{}.", variable("CARGO_PKG_VERSION_MAJOR"), variable("CARGO_PKG_VERSION_MINOR"));
    if !version.starts_with(&wanted) {
        eprintln!("the library in {} is of version {version}, and this crate wants {wanted}x", folder.display());
        exit(1);
    }
}

fn variable(name: &str) -> String {
    env::var(name).unwrap_or_default()
}

/// What `pkg-config` prints for a library of this version, where it has one for this target.
fn pkg_config() -> Option<String> {
    if variable("TARGET") != variable("HOST") && variable("PKG_CONFIG_ALLOW_CROSS") != "1" {
        return None;
    }
    let program = env::var_os("PKG_CONFIG").unwrap_or_else(|| "pkg-config".into());
    let (major, minor) = (variable("CARGO_PKG_VERSION_MAJOR"), variable("CARGO_PKG_VERSION_MINOR"));
    let next = minor.parse::<u32>().ok()? + 1;
    let wanted = [format!("{NAME} >= {major}.{minor}"), format!("{NAME} < {major}.{next}")];
    let output = Command::new(program).args(["--libs", "--keep-system-libs"]).args(wanted).output().ok()?;
    output.status.success().then(|| String::from_utf8_lossy(&output.stdout).into_owned())
}

/// Links by the words `-L` and `-l` of `pkg-config`.
fn link_words(words: &str) {
    for word in words.split_whitespace() {
        if let Some(folder) = word.strip_prefix("-L") {
            println!("cargo:rustc-link-search=native={folder}");
        } else if let Some(name) = word.strip_prefix("-l") {
            let kind = if wants_archive() == Some(true) { "static=" } else { "" };
            println!("cargo:rustc-link-lib={kind}{name}");
        }
    }
}
