//! Finds the library for C, and links it: by the folders that PENGTAWIS_LIB_DIR names, by pkg-config, or where `./install` puts it. Without a
//! library it warns, so that `cargo check` works, and a program isn't linked.

use std::env;
use std::path::{Path, PathBuf};
use std::process::Command;

/// The static library, and the toolchain's library under it, which calls malloc and free. `-l` takes their names without `lib`.
const STATIC: [&str; 2] = ["ds_c", "libc_c"];

/// Finds a file in one of the folders.
fn found(folders: &[PathBuf], name: &str) -> Option<PathBuf> {
    folders.iter().map(|it| it.join(name)).find(|it| it.is_file())
}

fn link_from(library: &Path, kind: &str, name: &str) {
    let folder = library.parent().unwrap_or_else(|| Path::new("."));
    println!("cargo:rerun-if-changed={}", library.display());
    println!("cargo:rustc-link-search=native={}", folder.display());
    println!("cargo:rustc-link-lib={}={}", kind, name);
}

/// Links the static library of these folders, or the shared one. Says whether there is one.
fn link_in(folders: &[PathBuf]) -> bool {
    let archives: Vec<_> = STATIC.iter().filter_map(|it| found(folders, &format!("lib{it}.a"))).collect();
    if archives.len() == STATIC.len() {
        STATIC.iter().zip(&archives).for_each(|(name, it)| link_from(it, "static", name));
        return true;
    }
    let shared = found(folders, "libds.so");
    shared.iter().for_each(|it| link_from(it, "dylib", "ds"));
    shared.is_some()
}

/// Links what pkg-config says. Says whether it knows the library.
fn link_by_pkg_config() -> bool {
    let said = match Command::new("pkg-config").args(["--libs", "pengtawis"]).output() {
        Ok(said) if said.status.success() => said.stdout,
        _ => return false,
    };
    for word in String::from_utf8_lossy(&said).split_whitespace() {
        match word.split_at(2.min(word.len())) {
            ("-L", folder) => println!("cargo:rustc-link-search=native={}", folder),
            ("-l", name) => println!("cargo:rustc-link-lib={}", name),
            _ => {}
        }
    }
    true
}

/// The folders of `./install`.
fn installed() -> Vec<PathBuf> {
    let homes = env::var_os("HOME").map(|it| Path::new(&it).join(".local"));
    homes.into_iter().chain([PathBuf::from("/usr/local")]).map(|it| it.join("lib/pengtawis")).collect()
}

fn main() {
    for it in ["PENGTAWIS_LIB_DIR", "PKG_CONFIG_PATH", "HOME"] {
        println!("cargo:rerun-if-env-changed={}", it);
    }
    let is_linked = match env::var_os("PENGTAWIS_LIB_DIR") {
        Some(named) => link_in(&env::split_paths(&named).collect::<Vec<_>>()),
        None => link_by_pkg_config() || installed().into_iter().any(|it| link_in(&[it])),
    };
    if !is_linked {
        println!("cargo:warning=the library for C isn't found: install it, or name the folder that has libds_c.a and liblibc_c.a, or libds.so,");
        println!("cargo:warning=by PENGTAWIS_LIB_DIR. Several folders are separated by colons. Nothing can be linked without it.");
    }
}
