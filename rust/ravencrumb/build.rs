// Links the static library that `.ci/library` wrote; RAVENCRUMB_LIB names another folder that has libffi.a.
fn main() {
    let here = std::env::var("CARGO_MANIFEST_DIR").unwrap_or_default();
    let folder = std::env::var("RAVENCRUMB_LIB").unwrap_or(format!("{here}/../../target/staticlib"));
    println!("cargo:rustc-link-search=native={folder}");
    println!("cargo:rustc-link-lib=static=ffi");
    println!("cargo:rerun-if-env-changed=RAVENCRUMB_LIB");
    println!("cargo:rerun-if-changed={folder}/libffi.a");
}
