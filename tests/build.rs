//! Links the library named by ANDURI_LIB (a path to `libdesk.a`; a relative one is taken from the repository's root).
//! Without it the comparisons with the library are left out.
use std::path::{Path, PathBuf};
use std::process::Command;

fn main() {
    println!("cargo:rustc-check-cfg=cfg(anduri_lib)");
    println!("cargo:rerun-if-env-changed=ANDURI_LIB");
    println!("cargo:rerun-if-changed=build.rs");
    let Some(named) = std::env::var_os("ANDURI_LIB").filter(|path| !path.is_empty()) else { return };
    let root = PathBuf::from(std::env::var_os("CARGO_MANIFEST_DIR").unwrap()).join("..");
    let archive = root.join(&named);
    let archive = archive.canonicalize().unwrap_or_else(|e| panic!("ANDURI_LIB={}: {e}", archive.display()));
    let file = archive.file_name().and_then(|name| name.to_str()).unwrap_or("");
    let name = file.strip_prefix("lib").and_then(|name| name.strip_suffix(".a"));
    let name = name.unwrap_or_else(|| panic!("ANDURI_LIB: {file} is not named lib*.a"));
    // An archive that is not named here would be linked stale: cargo keeps its own copy.
    println!("cargo:rerun-if-changed={}", archive.display());
    match std::env::var("CARGO_CFG_TARGET_ARCH").as_deref() {
        Ok("x86_64") => {
            println!("cargo:rustc-link-search=native={}", archive.parent().unwrap().display());
            println!("cargo:rustc-link-lib=static={name}");
        }
        _ => serve(&root, &archive),
    }
    println!("cargo:rustc-env=ANDURI_ARCHIVE={}", archive.display());
    println!("cargo:rustc-cfg=anduri_lib");
}

/// Builds the process that makes the library's calls for a machine that it is not for.
fn serve(root: &Path, archive: &Path) {
    let server = PathBuf::from(std::env::var_os("OUT_DIR").unwrap()).join("serve");
    let status = Command::new(root.join("tools/cc"))
        .args(["-std=c11", "-Wall", "-Wextra", "-Werror", "-O2", "-I"])
        .arg(root.join("include"))
        .arg(root.join("tests/src/serve.c"))
        .arg(archive)
        .arg("-o")
        .arg(&server)
        .status();
    assert!(status.expect("tools/cc starts").success(), "serve.c is not compiled");
    println!("cargo:rerun-if-changed=src/serve.c");
    println!("cargo:rustc-env=ANDURI_SERVER={}", server.display());
}
