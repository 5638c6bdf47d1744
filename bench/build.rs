// Links LMDB where asked for; the register's library is linked by its wrapper (rust/ravencrumb).
fn main() {
    if std::env::var_os("CARGO_FEATURE_LMDB").is_some() {
        println!("cargo:rustc-link-lib=dylib=lmdb");
    }
}
