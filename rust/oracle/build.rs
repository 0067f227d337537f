//! Copies the crate's texts, byte for byte, from the folder H3O_SRC (by default shared/docs/src beside the repository) into OUT_DIR, in the
//! crate's own layout, and writes the `#[path] mod` lines that pull them in. No text of the crate lies in this tree. Where the folder is not
//! there, the library is empty but for the flag that says so.
use std::{env, fs, path::Path, path::PathBuf};

const TEXTS: [(&str, &str); 5] = [
    ("geom.rs", "src/geom/solvent/mod.rs"),
    ("", "src/geom/solvent/arc_set.rs"),
    ("gosper.rs", "src/index/iterator/gosper.rs"),
    ("area.rs", "src/math/area.rs"),
    ("fp_adder.rs", "src/math/fp_adder.rs"),
];

fn main() {
    println!("cargo::rerun-if-env-changed=H3O_SRC");
    println!("cargo::rustc-check-cfg=cfg(h3o)");
    let source = env::var("H3O_SRC")
        .map_or_else(|_| Path::new(env!("CARGO_MANIFEST_DIR")).join("../../../shared/docs/src"), PathBuf::from);
    println!("cargo::rerun-if-changed={}", source.display());
    if !source.join(TEXTS[0].1).exists() {
        return;
    }
    println!("cargo::rustc-cfg=h3o");
    let out = PathBuf::from(env::var("OUT_DIR").expect("cargo sets OUT_DIR"));
    for (includes, text) in TEXTS {
        let from = source.join(text);
        println!("cargo::rerun-if-changed={}", from.display());
        let to = out.join("h3o").join(text);
        fs::create_dir_all(to.parent().expect("a text has a folder")).expect("OUT_DIR can be written");
        fs::copy(&from, &to).expect("a text can be copied");
        if !includes.is_empty() {
            let module = if includes == "geom.rs" { "solvent" } else { includes.trim_end_matches(".rs") };
            let line = format!("#[path = {:?}]\npub mod {module};\n", to.display().to_string());
            fs::write(out.join(includes), line).expect("OUT_DIR can be written");
        }
    }
}
