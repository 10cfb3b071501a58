//! Links libzorfelith.a. `ZORFELITH_LIB_DIR` names the folder that holds it.
fn main() {
    println!("cargo:rerun-if-env-changed=ZORFELITH_LIB_DIR");
    let folder = std::env::var("ZORFELITH_LIB_DIR").expect("ZORFELITH_LIB_DIR has to name the folder of libzorfelith.a");
    println!("cargo:rustc-link-search=native={folder}");
    println!("cargo:rustc-link-lib=static=zorfelith");
}
