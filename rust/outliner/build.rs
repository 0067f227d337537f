//! Links the proved library: target/staticlib/libhost.a at the root of the repository, or in the folder that ZONE_LIB names.
use std::{
    env,
    path::{Path, PathBuf},
};

fn main() {
    println!("cargo::rerun-if-env-changed=ZONE_LIB");
    let default = || Path::new(env!("CARGO_MANIFEST_DIR")).join("../../target/staticlib");
    let folder = env::var_os("ZONE_LIB").map_or_else(default, PathBuf::from);
    let archive = folder.join("libhost.a");
    println!("cargo::rerun-if-changed={}", archive.display());
    if !archive.exists() {
        println!(
            "cargo::error={} is not there: run `bin/static_library host` at the root of the repository, or name its folder in ZONE_LIB",
            archive.display()
        );
        return;
    }
    println!("cargo::rustc-link-search=native={}", folder.display());
    println!("cargo::rustc-link-lib=static=host");
}
