//! Copies the published files into the build folder, where the compiler finds them. Their text stays as it is, except that
//! a module is added at the end that opens their private calls to the harness (`doors.rs`), and that the build named
//! `replaced` has the modulus of `modulus.rs` for each call of `norm`. The build named `counting` has that too, and counts
//! the sweeps begun, the pairs turned, and the roots of columns' norms and of the final scale that do not come out even.

use std::path::{Path, PathBuf};
use std::{env, fs};

/// A published file, the name of its door, and how many calls of `norm` it has.
const FILES: [(&str, &str, usize); 4] = [
    ("src/backend/mps/svd.rs", "svd", 1),
    ("src/backend/schmidt.rs", "schmidt", 1),
    ("src/backend/reduced_density.rs", "reduced_density", 0),
    ("src/gates/spectral.rs", "spectral", 2),
];

/// Constants that stand in a published file too large to compile here.
const CONSTANTS: (&str, [&str; 5]) =
    ("src/backend/mps/mod.rs", ["ZERO", "ONE", "SVD_RESOLUTION", "MAX_SVD_SWEEPS", "JACOBI_REL_TOL"]);

fn read(path: &Path) -> String {
    println!("cargo::rerun-if-changed={}", path.display());
    fs::read_to_string(path).unwrap_or_else(|why| panic!("{}: {why}", path.display()))
}

fn main() {
    let here = PathBuf::from(env::var("CARGO_MANIFEST_DIR").unwrap());
    let root = match env::var("ZEGRAFULT_RUST") {
        Ok(folder) => PathBuf::from(folder),
        Err(_) => here.join("../../../shared/docs/src"),
    };
    let doors = here.join("../scaffold/doors.rs");
    let doors = read(&doors);
    let out = PathBuf::from(env::var("OUT_DIR").unwrap());
    let build = env::var("CARGO_PKG_NAME").unwrap();
    println!("cargo::rerun-if-env-changed=ZEGRAFULT_RUST");

    for (file, name, norms) in FILES {
        let mut text = read(&root.join(file));
        assert_eq!(text.matches(".norm()").count(), norms, "calls of norm in {file}");
        if build == "counting" {
            for (mark, call) in [("let mut rotated = false;", "sweep"), ("rotated = true;", "turn")] {
                let sweeping = matches!(name, "svd" | "schmidt");
                assert_eq!(text.matches(mark).count(), usize::from(sweeping), "{mark} in {file}");
                text = text.replace(mark, &format!("{mark} crate::count::{call}();"));
            }
        }
        if build == "counting" {
            for (file, mark, call) in [
                ("svd", "let norm = norm_sq.sqrt();", "root(norm_sq, norm)"),
                ("schmidt", "let scale = 1.0 / total.sqrt();", "root(total, total.sqrt())"),
            ] {
                assert_eq!(text.matches(mark).count(), usize::from(name == file), "{mark} in {file}");
                text = text.replace(mark, &format!("{mark} crate::count::{call};"));
            }
        }
        text.push_str(&format!("\npub mod door {{\n{}}}\n", door_of(&doors, name)));
        if build != "published" {
            text = text.replace(".norm()", ".modulus()") + "\nuse crate::modulus::Modulus;\n";
        }
        let copy = out.join(format!("{name}.rs"));
        fs::write(&copy, text).unwrap();
        let module = format!("#[path = {copy:?}]\npub mod {name};\n");
        fs::write(out.join(format!("mod_{name}.rs")), module).unwrap();
    }

    let (file, names) = CONSTANTS;
    let text = read(&root.join(file));
    let mut constants = String::new();
    for name in names {
        let start = format!("const {name}: ");
        let lines: Vec<&str> = text.lines().filter(|line| line.starts_with(&start)).collect();
        assert!(lines.len() == 1 && lines[0].ends_with(';'), "{name} in {file}");
        constants.push_str(lines[0]);
        constants.push('\n');
    }
    fs::write(out.join("constants.rs"), constants).unwrap();
}

/// The part of doors.rs that follows the line `//// NAME`, up to the next such line.
fn door_of<'a>(doors: &'a str, name: &str) -> &'a str {
    let head = format!("//// {name}\n");
    let start = doors.find(&head).expect("a door") + head.len();
    let rest = &doors[start..];
    &rest[..rest.find("//// ").unwrap_or(rest.len())]
}
