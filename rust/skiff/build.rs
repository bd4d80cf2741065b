//! Finds the proved library's archive and has it linked.

use std::path::{Path, PathBuf};
use std::{env, fs};

const VARIABLE: &str = "SKIFF_ARCHIVE";
const DEFAULT: &str = "target/staticlib/libskiff.a";

fn main() {
    println!("cargo::rerun-if-changed=build.rs");
    println!("cargo::rerun-if-env-changed={VARIABLE}");
    if env::var_os("CARGO_FEATURE_UNLINKED").is_some() {
        println!("cargo::warning=skiff links no archive: its symbols have to come from elsewhere");
        return;
    }
    // One line, since an error of a build script is one.
    if let Err(words) = link() {
        println!("cargo::error={words}");
    }
}

fn link() -> Result<(), String> {
    let archive = archive()?;
    println!("cargo::rerun-if-changed={}", archive.display());
    // A copy under a name of its own, so that an archive of any name can be given.
    let out = PathBuf::from(env::var_os("OUT_DIR").expect("cargo names the output folder"));
    fs::copy(&archive, out.join("libskiff_proved.a")).map_err(|error| {
        format!("the proved library's archive {} can't be copied: {error}", archive.display())
    })?;
    println!("cargo::rustc-link-search=native={}", out.display());
    println!("cargo::rustc-link-lib=static=skiff_proved");
    Ok(())
}

/// A relative setting counts from the project's root, as the default does.
fn archive() -> Result<PathBuf, String> {
    let given = env::var_os(VARIABLE).filter(|given| !given.is_empty());
    let machine = env::var("CARGO_CFG_TARGET_ARCH").unwrap_or_default();
    if given.is_none() && machine != "x86_64" {
        return Err(format!(
            "the proved library's archive is for x86_64 and this is {machine}: set {VARIABLE} to an archive \
             of the same module for this machine"
        ));
    }
    let package = PathBuf::from(env::var_os("CARGO_MANIFEST_DIR").expect("cargo names the package's folder"));
    let root = package.ancestors().nth(2).unwrap_or(&package);
    let archive = root.join(given.as_deref().unwrap_or(DEFAULT.as_ref()));
    if archive.is_file() {
        return Ok(archive);
    }
    Err(missing(&archive, given.is_some()))
}

fn missing(archive: &Path, was_given: bool) -> String {
    let (place, set) = (archive.display(), if was_given { "is set to it" } else { "is not set" });
    format!(
        "the proved library's archive is not there: no file {place} ({VARIABLE} {set}). Run \
         `rust/build-archive` in the project, which proves the library and writes {DEFAULT}, or set \
         {VARIABLE} to an archive"
    )
}
