//! Links the port's static library where it stands, and says which entry points it has.

use std::path::PathBuf;
use std::{env, fs};

fn main() {
    let here = PathBuf::from(env::var("CARGO_MANIFEST_DIR").unwrap());
    let archive = match env::var("ZEGRAFULT_LIBRARY") {
        Ok(file) => PathBuf::from(file),
        Err(_) => here.join("../../target/staticlib/libexports.a"),
    };
    println!("cargo::rerun-if-env-changed=ZEGRAFULT_LIBRARY");
    println!("cargo::rerun-if-changed={}", archive.display());
    let Ok(bytes) = fs::read(&archive) else {
        println!("cargo::warning={} is not there: nothing to compare", archive.display());
        return;
    };
    let folder = archive.parent().expect("a folder").display();
    let file = archive.file_stem().and_then(|stem| stem.to_str()).expect("a file");
    println!("cargo::rustc-link-search=native={folder}");
    println!("cargo::rustc-link-lib=static={}", file.strip_prefix("lib").expect("a library's file"));
    // The archive's index has each exported name, ended by a zero byte.
    let name_at = |at: usize| {
        let rest = &bytes[at..];
        let length = rest.iter().take_while(|byte| byte.is_ascii_lowercase() || **byte == b'_').count();
        let whole = rest.starts_with(b"zg_") && rest.get(length) == Some(&0);
        whole.then(|| String::from_utf8_lossy(&rest[..length]).into_owned())
    };
    let mut names: Vec<String> = (0..bytes.len()).filter_map(name_at).collect();
    names.sort();
    names.dedup();
    for name in names {
        println!("cargo::rustc-cfg=has_{name}");
    }
}
