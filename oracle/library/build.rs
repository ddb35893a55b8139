// The archive stands beside this file: oracle/build puts it there.
fn main() {
    let here = std::env::var("CARGO_MANIFEST_DIR").expect("cargo says where this is");
    println!("cargo:rustc-link-search=native={here}");
    println!("cargo:rustc-link-lib=static=sam_header");
    println!("cargo:rerun-if-changed={here}/libsam_header.a");
}
