//! Names the Rust sources, which stand outside the repository, for src/lib.rs to compile; under the feature `port` also
//! where the library for C stands.

use std::{
    env, fs,
    path::{Path, PathBuf},
};

fn main() {
    let beside = Path::new(env!("CARGO_MANIFEST_DIR")).join("../../../shared/docs/src");
    let root = env::var_os("MIRATOPE").map_or(beside, Into::into);
    let src = found(root.join("miratope-core/src"), "MIRATOPE names the folder that holds miratope-core");

    let module = |name: &str, file: &str| {
        let path = src.join(file);
        println!("cargo:rerun-if-changed={}", path.display());
        format!("#[path = {path:?}]\npub mod {name};\n")
    };
    let text = module("float", "float.rs") + &module("cox", "cox/mod.rs");

    // `cox` itself names these two.
    for file in ["cox/cd.rs", "cox/parse.rs"] {
        println!("cargo:rerun-if-changed={}", src.join(file).display());
    }
    println!("cargo:rerun-if-env-changed=MIRATOPE");

    let out = Path::new(&env::var_os("OUT_DIR").unwrap()).join("miratope.rs");
    fs::write(out, text).unwrap();

    if env::var_os("CARGO_FEATURE_PORT").is_some() {
        search_port();
    }
}

/// Where to search. What to link stands with the calls in `compare`: a `rustc-link-lib` here would put the port into
/// libmiratope.a too, beside which programs in C link the port themselves.
fn search_port() {
    let staticlib = Path::new(env!("CARGO_MANIFEST_DIR")).join("../../target/staticlib");
    let port = found(staticlib.join("liblexicon_c.a"), "the Makefile's lexicon_c builds it");
    println!("cargo:rerun-if-changed={}", port.display());
    println!("cargo:rustc-link-search=native={}", port.parent().unwrap().display());
}

fn found(path: PathBuf, hint: &str) -> PathBuf {
    path.canonicalize().unwrap_or_else(|e| panic!("{}: {e} ({hint})", path.display()))
}
