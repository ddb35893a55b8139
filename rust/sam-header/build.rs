//! Finds the proved archive: in the folder that SAM_HEADER_LIB_DIR names; in dist/ at the top of the repository, where the archive that is kept there was
//! made from the crates of this tree (dist/kept) and SAM_HEADER_PROVE is not set; or where ./archive puts it.
use std::env;
use std::path::{Path, PathBuf};
use std::process::Command;

/// The folder of the archive that dist/ keeps for this processor, if it was made from the crates at hand.
fn kept(top: &Path) -> Option<PathBuf> {
    if env::var_os("SAM_HEADER_PROVE").is_some_and(|word| !word.is_empty()) {
        return None;
    }
    let said = Command::new(top.join("dist/kept")).arg(env::var_os("CARGO_CFG_TARGET_ARCH")?).output().ok()?;
    let path = String::from_utf8(said.stdout).ok().filter(|_| said.status.success())?;
    Some(Path::new(path.trim_end()).parent()?.to_path_buf())
}

fn main() {
    let top = PathBuf::from(env::var_os("CARGO_MANIFEST_DIR").unwrap_or_default()).join("../..");
    let named = env::var_os("SAM_HEADER_LIB_DIR").map(PathBuf::from);
    let folder = named.or_else(|| kept(&top)).unwrap_or_else(|| top.join("target/native"));
    let archive = folder.join("libsam_header.a");
    if !archive.is_file() {
        eprintln!(
            "{} holds no libsam_header.a: run ./archive at the top of the repository, or set SAM_HEADER_LIB_DIR.",
            folder.display()
        );
        std::process::exit(1);
    }
    println!("cargo:rustc-link-search=native={}", folder.display());
    println!("cargo:rustc-link-lib=static=sam_header");
    println!("cargo:rerun-if-env-changed=SAM_HEADER_LIB_DIR");
    println!("cargo:rerun-if-env-changed=SAM_HEADER_PROVE");
    println!("cargo:rerun-if-changed={}", archive.display());
    for source in ["crates", "crates.txt", "dist"].map(|name| top.join(name)).iter().filter(|path| path.exists()) {
        println!("cargo:rerun-if-changed={}", source.display());
    }
}
