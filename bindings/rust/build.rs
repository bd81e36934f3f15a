//! Links `liblexicon_c.a` from the folder `LEXICON_LIB`, or from where `make lib` puts it.

use std::{env, path::Path};

fn main() {
    println!("cargo:rerun-if-env-changed=LEXICON_LIB");
    let folder = env::var_os("LEXICON_LIB").unwrap_or_else(|| "../../target/staticlib".into());
    // rustc may run in another folder than this program, so the path is made absolute.
    let folder = Path::new(env!("CARGO_MANIFEST_DIR")).join(folder);
    let library = folder.join("liblexicon_c.a");
    println!("cargo:rerun-if-changed={}", library.display());

    // A warning and no more: `cargo doc` and `cargo check` need no library, and rustc stops without
    // one where it links.
    if !library.is_file() {
        println!(
            "cargo:warning={} is missing. Run `make lib` in the repository, or set LEXICON_LIB to the folder of liblexicon_c.a.",
            library.display()
        );
    }
    println!("cargo:rustc-link-search=native={}", folder.display());
    println!("cargo:rustc-link-lib=static=lexicon_c");
}
