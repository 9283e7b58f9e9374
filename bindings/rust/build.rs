//! Finds the library. `LARBOARDYUZU_LIB_DIR` names the folder that has it; without this variable `pkg-config` is asked.
//! `LARBOARDYUZU_LINK` is `static` or `shared`; without it the archive is linked if the folder has one.

use std::path::Path;
use std::process::{exit, Command};
use std::{env, fs};

/// The versions of the library whose binary interface is that of `src/sys.rs`.
const VERSIONS: [&str; 2] = ["larboardyuzu >= 0.3", "larboardyuzu < 0.4"];

fn main() {
    println!("cargo:rerun-if-changed=build.rs");
    for name in ["LARBOARDYUZU_LIB_DIR", "LARBOARDYUZU_LINK", "PKG_CONFIG_PATH", "PKG_CONFIG_LIBDIR"] {
        println!("cargo:rerun-if-env-changed={name}");
    }
    if env::var_os("DOCS_RS").is_some() {
        return; // only the pages are made there
    }
    let folder = env::var("LARBOARDYUZU_LIB_DIR").ok().or_else(folder_of_pkg_config);
    let folder = folder.unwrap_or_else(|| fail("no library: install it, or set LARBOARDYUZU_LIB_DIR to its folder"));
    if !Path::new(&folder).is_absolute() {
        fail(&format!("LARBOARDYUZU_LIB_DIR is {folder}, and has to be an absolute path"));
    }
    let kind = kind_in(Path::new(&folder));
    println!("cargo:rustc-link-search=native={folder}");
    println!("cargo:rustc-link-lib={kind}=larboardyuzu");
}

/// The folder of the library as `pkg-config` has it, if the version is one that will do.
fn folder_of_pkg_config() -> Option<String> {
    let is_there = Command::new("pkg-config").arg("--exists").args(VERSIONS).status().ok()?.success();
    let asked = Command::new("pkg-config").args(["--variable=libdir", "larboardyuzu"]).output().ok()?;
    let folder = String::from_utf8(asked.stdout).ok()?.trim().to_owned();
    (is_there && !folder.is_empty()).then_some(folder)
}

/// How the library in a folder is linked: `static` or `dylib`.
fn kind_in(folder: &Path) -> &'static str {
    let has = |name| fs::metadata(folder.join(name)).is_ok();
    println!("cargo:rerun-if-changed={}", folder.display());
    match env::var("LARBOARDYUZU_LINK").as_deref() {
        Ok("static") => "static",
        Ok("shared") => "dylib",
        Ok(other) => fail(&format!("LARBOARDYUZU_LINK is {other}, and has to be static or shared")),
        Err(_) if has("liblarboardyuzu.a") => "static",
        Err(_) if has("liblarboardyuzu.so") => "dylib",
        Err(_) => fail(&format!("{} has neither liblarboardyuzu.a nor liblarboardyuzu.so", folder.display())),
    }
}

fn fail(why: &str) -> ! {
    eprintln!("larboardyuzu: {why}");
    exit(1)
}
