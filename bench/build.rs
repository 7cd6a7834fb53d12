//! Tells the runner whether the library is linked; linking it is the tests' part.
fn main() {
    println!("cargo:rustc-check-cfg=cfg(anduri_lib)");
    println!("cargo:rerun-if-env-changed=ANDURI_LIB");
    if std::env::var_os("ANDURI_LIB").is_some_and(|path| !path.is_empty()) {
        println!("cargo:rustc-cfg=anduri_lib");
    }
}
