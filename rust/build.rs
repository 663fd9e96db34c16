//! Finds the static library of the proved grid recovery and has it linked.
use std::path::PathBuf;
use std::{env, process};

fn stop(why: &str) -> ! {
    eprintln!("projective-grid-verified: {why}");
    process::exit(1)
}

fn main() {
    println!("cargo:rerun-if-env-changed=PROJECTIVE_GRID_LIB_DIR");
    let target = |key| env::var(key).unwrap_or_default();
    if target("CARGO_CFG_TARGET_ARCH") != "x86_64" || target("CARGO_CFG_TARGET_FAMILY") != "unix" {
        stop("the proved library links on x86-64 only, with the C calling convention of Unix");
    }
    let folder = match env::var_os("PROJECTIVE_GRID_LIB_DIR") {
        Some(folder) => PathBuf::from(folder),
        None => PathBuf::from(env!("CARGO_MANIFEST_DIR")).join("../crates/grid_export/out"),
    };
    let archive = folder.join("libgrid_export.a");
    println!("cargo:rerun-if-changed={}", archive.display());
    let Ok(archive) = archive.canonicalize() else {
        stop(&format!(
            "there is no {}: run `rt lib` in crates/grid_export, \
             or set PROJECTIVE_GRID_LIB_DIR to the folder of libgrid_export.a",
            archive.display()
        ));
    };
    let folder = archive.parent().expect("a file has a folder");
    println!("cargo:rustc-link-search=native={}", folder.display());
    println!("cargo:rustc-link-lib=static=grid_export");
}
