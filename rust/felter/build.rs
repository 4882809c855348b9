//! Links libfelter.a. FELTER_DIR can name the folder of the archive. If the path is relative, it begins at the folder
//! that the variable PWD names, which is the folder in which a shell starts cargo. If FELTER_DIR is not set, the folder
//! of the archive is the first of these folders that has it: `native` in this crate, the folder that pkg-config names
//! for felter, and the repository's `c/out`. `c/build` puts the archive into `c/out`. If no folder has the archive, the
//! documentation can still be built with DOCS_RS.
use std::env;
use std::path::{Path, PathBuf};
use std::process::Command;

const ARCHIVE: &str = "libfelter.a";

/// Returns the folder that FELTER_DIR names.
fn named() -> Option<PathBuf> {
    let folder = PathBuf::from(env::var_os("FELTER_DIR").filter(|it| !it.is_empty())?);
    if folder.is_absolute() {
        return Some(folder);
    }
    println!("cargo:rerun-if-env-changed=PWD");
    let started = env::var_os("PWD").map(PathBuf::from).unwrap_or_default();
    Some(started.join(folder))
}

/// Returns the folder in which pkg-config has the library.
fn packaged() -> Option<PathBuf> {
    let said = Command::new("pkg-config").args(["--variable=libdir", "felter"]).output().ok()?;
    let folder = String::from_utf8(said.stdout).ok()?;
    // (pkg-config puts a backslash before each space)
    said.status.success().then(|| PathBuf::from(folder.trim().replace("\\ ", " ")))
}

/// Returns the folders in which the archive may be, the first one first.
fn candidates(here: &Path) -> Vec<PathBuf> {
    if let Some(folder) = named() {
        return vec![folder];
    }
    let mut folders = vec![here.join("native")];
    folders.extend(packaged());
    folders.push(here.join("../../c/out"));
    folders
}

/// Lets cargo link the archive. If this is impossible, returns what is missing.
fn link() -> Result<(), String> {
    let target = ["CARGO_CFG_TARGET_ARCH", "CARGO_CFG_TARGET_OS"].map(|it| env::var(it).unwrap_or_default());
    if target != ["x86_64", "linux"] {
        return Err(format!("the library runs on Linux on x86-64, and not on {} on {}", target[1], target[0]));
    }
    let here = PathBuf::from(env::var_os("CARGO_MANIFEST_DIR").expect("cargo names the crate's folder"));
    let folders = candidates(&here);
    let Some(folder) = folders.iter().find(|it| it.join(ARCHIVE).is_file()) else {
        let looked: Vec<_> = folders.iter().map(|it| it.display().to_string()).collect();
        return Err(format!(
            "there is no {ARCHIVE} in {}: run c/build, or let FELTER_DIR name the folder that it filled",
            looked.join(", ")
        ));
    };
    // (if a file is not there, cargo compiles the crate each time, so this names only the archive that was found)
    println!("cargo:rerun-if-changed={}", folder.join(ARCHIVE).display());
    println!("cargo:rustc-link-search=native={}", folder.display());
    println!("cargo:rustc-link-lib=static=felter");
    Ok(())
}

fn main() {
    for name in ["FELTER_DIR", "DOCS_RS", "PKG_CONFIG_PATH"] {
        println!("cargo:rerun-if-env-changed={name}");
    }
    let Err(missing) = link() else {
        return;
    };
    if env::var_os("DOCS_RS").is_none() {
        eprintln!("felter: {missing}");
        std::process::exit(1);
    }
    println!("cargo:warning=felter: {missing}");
}
