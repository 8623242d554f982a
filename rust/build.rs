//! Links the compiled library, libharpginger.a. HARPGINGER_ARCHIVE names the folder that holds it:
//! absolute, or from where cargo was started, or from this package's folder. Without it that is
//! where `checks/native` writes the archive for this machine, or for the target of this build;
//! else, for x86-64 alone, `target/staticlib`, where the repository's checks leave it.
//!
//! Where there is none a warning says where it was looked for and what to type; `cargo check` works
//! there all the same, and whatever has to be linked stops at the missing library.

use std::env;
use std::path::{Path, PathBuf};

fn main() {
    println!("cargo::rerun-if-changed=build.rs");
    println!("cargo::rerun-if-env-changed=HARPGINGER_ARCHIVE");
    // Named in every case: without a folder to find it in, linking is refused by name.
    println!("cargo::rustc-link-lib=static=harpginger");
    // The folder itself, whatever link leads to it, so that the repository is around it.
    let package = env::current_dir().expect("Cargo runs this in the package's folder");
    let repository = package.parent().unwrap_or(&package);
    let named = env::var_os("HARPGINGER_ARCHIVE");
    let folders = match &named {
        Some(named) => folders_named(&package, Path::new(named)),
        None => folders_written(repository),
    };
    match folders.iter().find(|folder| archive(folder).is_file()) {
        Some(folder) => {
            watch(folder);
            println!("cargo::rustc-link-search=native={}", folder.display());
        }
        None => {
            folders.iter().for_each(|folder| watch(folder));
            warn(&folders, repository, named.is_some());
        }
    }
}

/// The folders that a name stands for: one from where cargo was started comes first.
fn folders_named(package: &Path, named: &Path) -> Vec<PathBuf> {
    let mut folders = Vec::new();
    if named.is_relative() {
        println!("cargo::rerun-if-env-changed=PWD");
        folders.extend(env::var_os("PWD").map(|started| Path::new(&started).join(named)));
    }
    folders.push(package.join(named));
    folders.dedup();
    folders
}

/// The folders that the repository's own commands write an archive of this build's target to.
fn folders_written(repository: &Path) -> Vec<PathBuf> {
    let native = repository.join("target/native");
    let mut folders = vec![native.join(variable("TARGET"))];
    if for_this_machine() {
        folders.insert(0, native);
    }
    if variable("CARGO_CFG_TARGET_ARCH") == "x86_64" {
        folders.push(repository.join("target/staticlib"));
    }
    folders
}

/// Says each place that was looked in, and what to type.
fn warn(folders: &[PathBuf], repository: &Path, named: bool) {
    println!("cargo::warning=no archive to link, so that only `cargo check` works; there is no");
    for folder in folders {
        println!("cargo::warning=    {}", archive(folder).display());
    }
    let target = match for_this_machine() {
        true => String::new(),
        false => format!(" {}", variable("TARGET")),
    };
    let write = format!("type `checks/native{target}` in {}", repository.display());
    let name = "set HARPGINGER_ARCHIVE to the folder that holds it";
    match named {
        true => println!("cargo::warning={name}, or unset it and {write}"),
        false => println!("cargo::warning={write}, or {name}"),
    }
}

fn for_this_machine() -> bool {
    variable("HOST") == variable("TARGET")
}

/// A variable that Cargo sets for every build script.
fn variable(name: &str) -> String {
    env::var(name).unwrap_or_else(|error| panic!("Cargo sets {name}: {error}"))
}

fn archive(folder: &Path) -> PathBuf {
    folder.join("libharpginger.a")
}

/// Has Cargo run this again when the archive changes; one that is not there counts as changed.
fn watch(folder: &Path) {
    println!("cargo::rerun-if-changed={}", archive(folder).display());
}
