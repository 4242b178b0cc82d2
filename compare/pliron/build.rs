//! Brings pliron's own sources into the build, unchanged.
//!
//! They are read from the folder that PLIRON_SRC names: the crate's folder, in which `src/` stands, or its `src/`
//! itself. Each must have the SHA-256 sum that stands for it in compare/SUMS. They are copied to OUT_DIR, and the `mod`
//! lines for them are written beside them; src/lib.rs includes those.
use std::env;
use std::fs;
use std::path::{Path, PathBuf};

mod sha256 {
    include!("sha256.rs");
}

/// Ends the build with a message and nothing else.
fn give_up(message: String) -> ! {
    eprintln!("\n{message}\n");
    std::process::exit(1)
}

/// The folder that has `operation.rs` and the others.
fn sources() -> PathBuf {
    let Some(named) = env::var_os("PLIRON_SRC") else {
        give_up(
            "PLIRON_SRC is not set: it has to name the folder of the sources of pliron 0.20.0, in which src/operation.rs stands"
                .into(),
        )
    };
    let named = PathBuf::from(named);
    let inner = named.join("src");
    let folder = if inner.is_dir() { inner } else { named };
    if !folder.is_dir() {
        give_up(format!("PLIRON_SRC names {}, which is no folder", folder.display()))
    }
    folder
}

/// The file's bytes, if they have the sum that is listed.
fn read(from: &Path, file: &str, sum: &str) -> Vec<u8> {
    let path = from.join(file);
    println!("cargo:rerun-if-changed={}", path.display());
    let bytes = match fs::read(&path) {
        Ok(bytes) => bytes,
        Err(e) => give_up(format!("{}: {e} (looked for it because compare/SUMS lists it)", path.display())),
    };
    let found = sha256::hex(&bytes);
    if found != sum {
        give_up(format!(
            "{} is not the file of pliron 0.20.0: its SHA-256 sum is\n  {found}\nand compare/SUMS has\n  {sum}",
            path.display()
        ))
    }
    bytes
}

fn main() {
    println!("cargo:rerun-if-env-changed=PLIRON_SRC");
    println!("cargo:rerun-if-changed=../SUMS");
    println!("cargo:rerun-if-changed=sha256.rs");
    let here = PathBuf::from(env::var("CARGO_MANIFEST_DIR").unwrap());
    let sums = fs::read_to_string(here.join("../SUMS")).expect("compare/SUMS");
    let from = sources();
    let tree = PathBuf::from(env::var("OUT_DIR").unwrap()).join("tree");
    for line in sums.lines() {
        let (sum, file) = line.split_once("  ").expect("a line of compare/SUMS is a sum, two spaces, a file");
        let to = tree.join(file);
        fs::create_dir_all(to.parent().unwrap()).unwrap();
        fs::write(&to, read(&from, file, sum)).unwrap();
    }
    // irbuild/mod.rs names these four; nothing of them is used here.
    for file in ["cloning", "decontext", "equivalence", "match_rewrite"] {
        fs::write(tree.join(format!("irbuild/{file}.rs")), "").unwrap();
    }
    let at = |path: PathBuf| format!("#[path = {path:?}]");
    let mut root = String::new();
    for (name, file) in [
        ("operation", "operation.rs"),
        ("value", "value.rs"),
        ("basic_block", "basic_block.rs"),
        ("linked_list", "linked_list.rs"),
        ("r#type", "type.rs"),
        ("context", "context.rs"),
        ("irbuild", "irbuild/mod.rs"),
    ] {
        root += &format!("{} pub mod {name};\n", at(tree.join(file)));
    }
    root += &format!(
        "pub mod graph {{\n{} pub mod walkers;\n{} mod shim;\npub use shim::*;\n}}\n",
        at(tree.join("graph/walkers.rs")),
        at(here.join("shim/graph.rs"))
    );
    fs::write(tree.join("root.rs"), root).unwrap();
}
