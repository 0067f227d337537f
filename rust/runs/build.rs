//! Says what is there when the runs are built.
//! - cfgs `subject` and `exports`: the library under test, the archive that `bin/static_library host` writes at the root of the repository (or in
//!   the folder ZONE_LIB), has the byte entry points, and the calls at full size. Without it the runs compare the rules with the oracle alone.
//! - cfg `walk`: the walk alone, which `bin/static_library walk_timing` writes, for the benchmark.
//! - cfg `h3o`: the oracle has the crate's texts (the same test as in its build.rs).
use std::{env, fs, path::Path, path::PathBuf};

fn main() {
    println!("cargo::rustc-check-cfg=cfg(subject, exports, walk, h3o)");
    let libraries = folder("ZONE_LIB", "../../target/staticlib");
    println!("cargo::rustc-link-search=native={}", libraries.display());
    link(&libraries, "host", &[("subject", "zone_standing"), ("exports", "zo_dissolve")]);
    link(&libraries, "walk_timing", &[("walk", "zone_walk")]);
    let texts = folder("H3O_SRC", "../../../shared/docs/src").join("src/geom/solvent/mod.rs");
    println!("cargo::rerun-if-changed={}", texts.display());
    if texts.exists() {
        println!("cargo::rustc-cfg=h3o");
    }
}

fn folder(variable: &str, default: &str) -> PathBuf {
    println!("cargo::rerun-if-env-changed={variable}");
    env::var(variable).map_or_else(|_| Path::new(env!("CARGO_MANIFEST_DIR")).join(default), PathBuf::from)
}

/// Links an archive that is there, with a cfg for each symbol that it has.
fn link(folder: &Path, name: &str, flags: &[(&str, &str)]) {
    let archive = folder.join(format!("lib{name}.a"));
    println!("cargo::rerun-if-changed={}", archive.display());
    let Ok(bytes) = fs::read(&archive) else {
        return;
    };
    println!("cargo::rustc-link-lib=static={name}");
    let has = |symbol: &str| bytes.windows(symbol.len()).any(|part| part == symbol.as_bytes());
    for (flag, _) in flags.iter().filter(|(_, symbol)| has(symbol)) {
        println!("cargo::rustc-cfg={flag}");
    }
}
