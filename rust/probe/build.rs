//! Names arc_set.rs of the crate's texts, in the folder H3O_SRC (by default shared/docs/src beside the repository), where it is there.
use std::{env, path::Path, path::PathBuf};

fn main() {
    println!("cargo::rerun-if-env-changed=H3O_SRC");
    println!("cargo::rustc-check-cfg=cfg(h3o)");
    let source = env::var("H3O_SRC")
        .map_or_else(|_| Path::new(env!("CARGO_MANIFEST_DIR")).join("../../../shared/docs/src"), PathBuf::from);
    let text = source.join("src/geom/solvent/arc_set.rs");
    println!("cargo::rerun-if-changed={}", text.display());
    if let Ok(text) = text.canonicalize() {
        println!("cargo::rustc-cfg=h3o");
        println!("cargo::rustc-env=ARC_SET={}", text.display());
    }
}
