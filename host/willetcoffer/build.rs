//! Links the proved engine's archive: `target/staticlib/libexports.a` of this repository, or the file that the environment
//! variable `WILLETCOFFER_ARCHIVE` names. Without it, or with one that lacks a call of `src/raw.rs`, nothing is built.

use std::env;
use std::path::{Path, PathBuf};
use std::process::ExitCode;

const WHAT_TO_RUN: &str =
    "run `tools/build.sh archive` at the root of the repository (`make test` and `make demo` do), \
    or name another archive by WILLETCOFFER_ARCHIVE";

/// The calls that `src/raw.rs` declares.
fn calls(source: &str) -> Vec<&str> {
    let after_fn = source.split("    fn willetcoffer_").skip(1);
    after_fn.filter_map(|rest| rest.split('(').next()).collect()
}

fn missing_call(archive: &Path, folder: &Path) -> Result<(), String> {
    let bytes = std::fs::read(archive).map_err(|error| format!("{}: {error}", archive.display()))?;
    let source = folder.join("src/raw.rs");
    let source = std::fs::read_to_string(&source).map_err(|error| format!("{}: {error}", source.display()))?;
    for call in calls(&source) {
        let name = format!("willetcoffer_{call}\0");
        if !bytes.windows(name.len()).any(|window| window == name.as_bytes()) {
            return Err(format!("the archive {} has no willetcoffer_{call}", archive.display()));
        }
    }
    Ok(())
}

fn main() -> ExitCode {
    println!("cargo:rerun-if-env-changed=WILLETCOFFER_ARCHIVE");
    println!("cargo:rerun-if-changed=src/raw.rs");
    let folder = PathBuf::from(env!("CARGO_MANIFEST_DIR"));
    let usual = folder.join("../../target/staticlib/libexports.a");
    let archive = env::var_os("WILLETCOFFER_ARCHIVE").map_or(usual, PathBuf::from);
    println!("cargo:rerun-if-changed={}", archive.display());
    if !archive.is_file() {
        println!("cargo::error=the proved engine's archive is not at `{}`: {WHAT_TO_RUN}", archive.display());
        return ExitCode::FAILURE;
    }
    if let Err(what) = missing_call(&archive, &folder) {
        println!("cargo::error={what}: {WHAT_TO_RUN}");
        return ExitCode::FAILURE;
    }
    if let (Some(folder), Some(stem)) = (archive.parent(), archive.file_stem()) {
        let name = stem.to_string_lossy();
        println!("cargo:rustc-link-search=native={}", folder.display());
        println!("cargo:rustc-link-lib=static={}", name.strip_prefix("lib").unwrap_or(&name));
    }
    ExitCode::SUCCESS
}
