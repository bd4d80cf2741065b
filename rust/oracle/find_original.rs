// Shared by the build scripts: where the original stands, and the root module that reads it there.

use std::fmt::Write;
use std::path::{Path, PathBuf};
use std::{env, fs};

const VARIABLE: &str = "SKIFF_ORIGINAL";
const DEFAULT: &str = "../shared/docs/src";

/// The folder of one of the original's crates. `to_root` leads from this package to the project's
/// root, from which the default and any relative setting count.
fn crate_folder(name: &str, to_root: &str) -> PathBuf {
    println!("cargo:rerun-if-env-changed={VARIABLE}");
    let package = env::var("CARGO_MANIFEST_DIR").expect("cargo names the package's folder");
    let named = env::var(VARIABLE).unwrap_or_else(|_| DEFAULT.to_owned());
    let folder = Path::new(&package).join(to_root).join(&named).join("crates").join(name).join("src");
    folder.canonicalize().unwrap_or_else(|error| {
        panic!("THE RUST ORIGINAL IS NOT THERE: {} ({error}); set {VARIABLE}", folder.display())
    })
}

/// Writes `original.rs`: one `mod` line for each file, pointing at the original itself, so that
/// nothing of it is copied and nothing in it can have been changed on the way.
pub fn write_modules(name: &str, to_root: &str, modules: &[&str]) {
    let folder = crate_folder(name, to_root);
    let mut text = String::new();
    for module in modules {
        let file = folder.join(format!("{module}.rs"));
        assert!(file.is_file(), "THE RUST ORIGINAL LACKS {}", file.display());
        println!("cargo:rerun-if-changed={}", file.display());
        writeln!(text, "#[path = {:?}]\npub mod {module};", file.display().to_string()).unwrap();
    }
    let out = PathBuf::from(env::var("OUT_DIR").expect("cargo names the output folder"));
    fs::write(out.join("original.rs"), text).expect("the output folder can be written");
}
