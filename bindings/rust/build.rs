//! Links the static library: libzegrafult.a or libexports.a in the folder that ZEGRAFULT_LIB names; where it names none, the one in
//! target/staticlib of the repository, or in the lib folder of the prefix that tools/install put this crate into.
use std::{env, path::PathBuf, process::exit};

fn main() {
    println!("cargo:rerun-if-env-changed=ZEGRAFULT_LIB");
    let here = PathBuf::from(env::var_os("CARGO_MANIFEST_DIR").expect("cargo sets it"));
    let places = match env::var_os("ZEGRAFULT_LIB").map(PathBuf::from) {
        Some(folder) => vec![folder.join("libzegrafult.a"), folder.join("libexports.a")],
        None => vec![here.join("../../target/staticlib/libexports.a"), here.join("../../../lib/libzegrafult.a")],
    };
    let Some(archive) = places.iter().find(|file| file.is_file()) else {
        eprintln!("The static library of Zegrafult is not there. In its repository run `tools/library`, which proves and builds it,");
        eprintln!("or `tools/install PREFIX` and depend on PREFIX/share/zegrafult/rust; or set ZEGRAFULT_LIB to the folder that has it.");
        eprintln!("Looked for: {}", places.iter().map(|file| file.display().to_string()).collect::<Vec<_>>().join(", "));
        exit(1);
    };
    println!("cargo:rerun-if-changed={}", archive.display());
    println!("cargo:rustc-link-search=native={}", archive.parent().expect("a folder").display());
    let name = archive.file_stem().expect("a name").to_string_lossy();
    println!("cargo:rustc-link-lib=static={}", name.trim_start_matches("lib"));
}
