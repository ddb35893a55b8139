// Where libhts is there, oracle/build puts what calls it (oracle/htslib.c) beside this file, compiled.
fn main() {
    println!("cargo:rerun-if-changed=libbench_htslib.a");
    if std::env::var_os("CARGO_FEATURE_HTSLIB").is_some() {
        let here = std::env::var("CARGO_MANIFEST_DIR").expect("cargo says where this is");
        println!("cargo:rustc-link-search=native={here}");
        println!("cargo:rustc-link-lib=static=bench_htslib");
        println!("cargo:rustc-link-lib=dylib=hts");
    }
}
