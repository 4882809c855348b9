//! What build.rs says to cargo, and how it fails.
#![forbid(unsafe_code)]

use std::path::{Path, PathBuf};
use std::process::{self, Command, Output};
use std::{env, fs};

/// A folder with build.rs as a program, with the folder of a crate, and with an archive in `c/out`. It is removed at
/// the end.
struct Scratch(PathBuf);

impl Scratch {
    fn new(name: &str) -> Scratch {
        let folder = Path::new(env!("CARGO_TARGET_TMPDIR")).join(format!("building-{}-{name}", process::id()));
        for it in ["rust/felter", "c/out", "empty"] {
            fs::create_dir_all(folder.join(it)).expect("a new folder");
        }
        fs::write(folder.join("c/out/libfelter.a"), b"!<arch>\n").expect("a new file");
        let compiler = env::var_os("RUSTC").unwrap_or_else(|| "rustc".into());
        let source = Path::new(env!("CARGO_MANIFEST_DIR")).join("build.rs");
        let compiled =
            Command::new(compiler).arg("--edition=2021").arg(source).arg("-o").arg(folder.join("build")).status();
        assert!(compiled.expect("a compiler").success());
        Scratch(folder)
    }

    fn at(&self, path: &str) -> String {
        self.0.join(path).to_str().expect("it is UTF-8").to_string()
    }

    /// Runs build.rs as cargo does, with more variables. pkg-config finds nothing.
    fn build(&self, variables: &[(&str, &str)]) -> Built {
        let run = Command::new(self.0.join("build"))
            .env_remove("FELTER_DIR")
            .env_remove("DOCS_RS")
            .env_remove("PKG_CONFIG_PATH")
            .env("PKG_CONFIG_LIBDIR", self.at("empty"))
            .env("CARGO_MANIFEST_DIR", self.at("rust/felter"))
            .env("CARGO_CFG_TARGET_ARCH", "x86_64")
            .env("CARGO_CFG_TARGET_OS", "linux")
            .envs(variables.iter().copied())
            .output();
        Built(run.expect("it runs"))
    }
}

impl Drop for Scratch {
    fn drop(&mut self) {
        let _ = fs::remove_dir_all(&self.0);
    }
}

/// What build.rs said.
struct Built(Output);

impl Built {
    /// Returns the values that it sets for cargo by this name.
    fn set(&self, name: &str) -> Vec<String> {
        let said = String::from_utf8_lossy(&self.0.stdout);
        let values = said.lines().filter_map(|line| line.strip_prefix("cargo:")?.strip_prefix(name)?.strip_prefix('='));
        values.map(str::to_string).collect()
    }

    /// Returns the error that it shows.
    fn failed(&self) -> String {
        assert!(!self.0.status.success());
        String::from_utf8_lossy(&self.0.stderr).trim_end().to_string()
    }
}

#[test]
fn cargo_watches_the_archive_that_is_linked_and_no_file_that_is_missing() {
    let scratch = Scratch::new("watched");
    let built = scratch.build(&[]);
    let folder = scratch.at("rust/felter/../../c/out");
    assert_eq!(built.set("rustc-link-search"), [format!("native={folder}")]);
    assert_eq!(built.set("rustc-link-lib"), ["static=felter"]);
    // (cargo compiles the crate each time if a file that it watches is not there)
    assert_eq!(built.set("rerun-if-changed"), [format!("{folder}/libfelter.a")]);
    assert!(built.0.status.success() && !built.set("rerun-if-env-changed").contains(&"PWD".to_string()));
}

#[test]
fn a_relative_folder_begins_where_cargo_was_started() {
    let scratch = Scratch::new("relative");
    let built = scratch.build(&[("FELTER_DIR", "c/out"), ("PWD", &scratch.at(""))]);
    assert_eq!(built.set("rustc-link-search"), [format!("native={}", scratch.at("c/out"))]);
    // (the same name is another folder if cargo is started elsewhere)
    assert!(built.set("rerun-if-env-changed").contains(&"PWD".to_string()));
    let failed = scratch.build(&[("FELTER_DIR", "c/out"), ("PWD", &scratch.at("empty"))]).failed();
    let looked = scratch.at("empty/c/out");
    let advice = "run c/build, or let FELTER_DIR name the folder that it filled";
    assert_eq!(failed, format!("felter: there is no libfelter.a in {looked}: {advice}"));
}

#[test]
fn a_missing_archive_is_an_error_except_for_the_documentation() {
    let scratch = Scratch::new("missing");
    let missing = ("FELTER_DIR", &scratch.at("empty")[..]);
    assert!(scratch.build(&[missing]).failed().starts_with("felter: there is no libfelter.a in "));
    let built = scratch.build(&[missing, ("DOCS_RS", "1")]);
    assert!(built.0.status.success() && built.set("warning")[0].starts_with("felter: there is no libfelter.a in "));
    assert!(built.set("rustc-link-lib").is_empty());
}

#[test]
fn another_platform_is_an_error_before_anything_is_linked() {
    let scratch = Scratch::new("platform");
    for (name, value, shown) in
        [("CARGO_CFG_TARGET_ARCH", "aarch64", "linux on aarch64"), ("CARGO_CFG_TARGET_OS", "macos", "macos on x86_64")]
    {
        let failed = scratch.build(&[(name, value)]).failed();
        assert_eq!(failed, format!("felter: the library runs on Linux on x86-64, and not on {shown}"));
    }
}
