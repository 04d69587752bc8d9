//! Finds the library: in the folder HOXALGURRE_LIB, or by `pkg-config`.
use std::{env, path::Path, process::Command};

fn main() {
    println!("cargo:rerun-if-env-changed=HOXALGURRE_LIB");
    println!("cargo:rerun-if-env-changed=PKG_CONFIG_PATH");
    let folder = env::var("HOXALGURRE_LIB").ok().or_else(installed).unwrap_or_else(|| {
        eprintln!("hoxalgurre: no libhoxalgurre.a: run scripts/install.sh PREFIX, and set HOXALGURRE_LIB=PREFIX/lib");
        std::process::exit(1)
    });
    let kind = if Path::new(&folder).join("libhoxalgurre.a").exists() { "static" } else { "dylib" };
    println!("cargo:rerun-if-changed={folder}");
    println!("cargo:rustc-link-search=native={folder}");
    println!("cargo:rustc-link-lib={kind}=hoxalgurre");
}

/// The folder that `pkg-config` knows.
fn installed() -> Option<String> {
    let said = Command::new("pkg-config").args(["--variable=libdir", "hoxalgurre"]).output().ok()?;
    let folder = String::from_utf8(said.stdout).ok()?.trim().to_owned();
    (said.status.success() && !folder.is_empty()).then_some(folder)
}
