//! Finds the library, and says how to link it.
//!
//! Its folder is `CAPN_LIB_DIR`, or else the one that pkg-config knows `capn` to be in. The variables of pkg-config
//! mean what they mean to the crate `pkg-config`, with which a build for another machine is set up.
use std::env;
use std::ffi::OsString;
use std::path::{Path, PathBuf};
use std::process::Command;

fn main() {
    println!("cargo:rerun-if-changed=build.rs");
    let target = variable("TARGET");
    if !target.starts_with("x86_64-") || !target.contains("-linux-") {
        panic!("the library capn is for Linux on x86-64, and not for {target}");
    }
    let folders = match seen("CAPN_LIB_DIR") {
        Some(folder) => vec![absolute(folder)],
        None => known_to_pkg_config(&target),
    };
    let wants_shared = env::var_os("CARGO_FEATURE_SHARED").is_some();
    let (library, kind) = folders
        .iter()
        .find_map(|folder| library_in(folder, wants_shared))
        .unwrap_or_else(|| panic!("there is no library capn in {folders:?}"));
    let folder = library.parent().expect("the library is in a folder");
    println!("cargo:rerun-if-changed={}", library.display());
    println!("cargo:rustc-link-search=native={}", folder.display());
    println!("cargo:rustc-link-lib={kind}=capn");
    println!("cargo:lib_dir={}", folder.display());
}

/// The library of a folder that is linked, and its kind: the archive, unless the shared one is wanted.
fn library_in(folder: &Path, wants_shared: bool) -> Option<(PathBuf, &'static str)> {
    let archive = folder.join("libcapn.a");
    if !wants_shared && archive.is_file() {
        return Some((archive, "static"));
    }
    let shared = folder.join("libcapn.so");
    shared.exists().then_some((shared, "dylib"))
}

/// Rejects a relative path: cargo doesn't say in which folder it was called.
fn absolute(folder: OsString) -> PathBuf {
    let folder = PathBuf::from(folder);
    if folder.is_relative() {
        panic!(
            "CAPN_LIB_DIR is the relative path {folder:?}, and this script runs in the folder of its crate: set an \
             absolute path, such as $PWD/{}",
            folder.display()
        );
    }
    folder
}

/// The folders that pkg-config names, in its sysroot.
fn known_to_pkg_config(target: &str) -> Vec<PathBuf> {
    let host = variable("HOST");
    let of_target = |name: &str| {
        let kind = if host == target { "HOST" } else { "TARGET" };
        let names = [
            format!("{name}_{target}"),
            format!("{name}_{}", target.replace('-', "_")),
            format!("{kind}_{name}"),
            name.to_owned(),
        ];
        // All of them are looked at, so that the script runs again if any of them changes.
        names.map(|name| seen(&name)).into_iter().flatten().next()
    };
    let own = of_target("PKG_CONFIG");
    let sysroot = of_target("PKG_CONFIG_SYSROOT_DIR");
    let allowed = of_target("PKG_CONFIG_ALLOW_CROSS");
    let is_set_up = match allowed {
        Some(word) => word != *"0",
        None => own.is_some() || sysroot.is_some(),
    };
    if host != target && !is_set_up {
        panic!(
            "CAPN_LIB_DIR is not set, and pkg-config is not set up to build for {target} on {host}: set CAPN_LIB_DIR, \
             or PKG_CONFIG_SYSROOT_DIR, PKG_CONFIG or PKG_CONFIG_ALLOW_CROSS"
        );
    }
    let program = own.unwrap_or_else(|| "pkg-config".into());
    let mut command = Command::new(&program);
    // The folder is named even if the linker looks into it anyway.
    command
        .args(["--libs-only-L", "capn"])
        .env("PKG_CONFIG_ALLOW_SYSTEM_LIBS", "1");
    let rest = ["PKG_CONFIG_PATH", "PKG_CONFIG_LIBDIR"].map(|name| (name, of_target(name)));
    for (name, value) in rest
        .into_iter()
        .chain([("PKG_CONFIG_SYSROOT_DIR", sysroot)])
    {
        if let Some(value) = value {
            command.env(name, value);
        }
    }
    let answer = command.output().unwrap_or_else(|why| {
        panic!("CAPN_LIB_DIR is not set, and {program:?} does not run: {why}")
    });
    if !answer.status.success() {
        panic!(
            "CAPN_LIB_DIR is not set, and pkg-config does not know capn: set one of CAPN_LIB_DIR and PKG_CONFIG_PATH. \
             {}",
            String::from_utf8_lossy(&answer.stderr)
        );
    }
    folders_of(&String::from_utf8_lossy(&answer.stdout))
}

/// The folders of the options `-L` that pkg-config wrote, in which a backslash is before each special character.
fn folders_of(options: &str) -> Vec<PathBuf> {
    let (mut words, mut word, mut is_escaped) = (Vec::new(), String::new(), false);
    for letter in options.chars() {
        match letter {
            '\\' if !is_escaped => is_escaped = true,
            letter if letter.is_whitespace() && !is_escaped => {
                words.push(std::mem::take(&mut word))
            }
            letter => {
                word.push(letter);
                is_escaped = false;
            }
        }
    }
    words.push(word);
    words
        .iter()
        .filter_map(|word| word.strip_prefix("-L"))
        .map(PathBuf::from)
        .collect()
}

/// A variable of the environment, whose change runs the script again.
fn seen(name: &str) -> Option<OsString> {
    println!("cargo:rerun-if-env-changed={name}");
    env::var_os(name).filter(|value| !value.is_empty())
}

/// Returns a variable that cargo sets for a build.
fn variable(name: &str) -> String {
    env::var(name).unwrap_or_default()
}
