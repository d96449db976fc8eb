//! `sample PART SEED FOLDER` writes the part PART of what a replay program reads and must print, `stdin` and `stdout` in FOLDER, in the
//! place of the old one or last. The other parts are kept.

use std::collections::BTreeMap;
use std::fs;

use harness::oracle::{Build, outcome};
use harness::sample;

/// What the texts in a folder hold before a part, and after it: what is read and what is printed. A part starts with `# Part NAME: ..`, and
/// each of its lines that is no comment is a case and prints one line.
fn around(folder: &str, part: &str) -> [(String, String); 2] {
    let read = |name: &str| fs::read_to_string(format!("{folder}/{name}")).unwrap_or_default();
    let (asked, printed) = (read("stdin"), read("stdout"));
    let mut printed = printed.split_inclusive('\n');
    let mut around = [(String::new(), String::new()), (String::new(), String::new())];
    let (mut side, mut here) = (0, false);
    for line in asked.split_inclusive('\n') {
        if line.starts_with("# Part ") {
            here = line.starts_with(&format!("# Part {part}:"));
            side = side.max(usize::from(here));
        }
        let told = if line.starts_with('#') { "" } else { printed.next().unwrap_or_default() };
        if !here {
            around[side].0.push_str(line);
            around[side].1.push_str(told);
        }
    }
    around
}

fn main() {
    std::panic::set_hook(Box::new(|_| {}));
    let args: Vec<String> = std::env::args().skip(1).collect();
    let [part, seed, folder] = &args[..] else { panic!("usage: sample PART SEED FOLDER") };
    let calls = sample::cases_of(part, seed.parse().expect("a seed"));
    let [(mut asked, mut printed), after] = around(folder, part);
    asked.push_str(&format!(
        "# Part {part}: answers of the published Rust, build replaced (norm is the modulus that scales first), seed {seed}.\n\
         # Made by: oracle/sample {part} {seed}\n"
    ));
    let mut answers = BTreeMap::new();
    for call in &calls {
        asked.push_str(&sample::asked(part, call));
        asked.push('\n');
        printed.push_str(&sample::printed(part, call));
        printed.push('\n');
        *answers.entry(outcome(call, Build::Replaced).number).or_insert(0) += 1;
    }
    asked.push_str(&after.0);
    printed.push_str(&after.1);
    fs::write(format!("{folder}/stdin"), &asked).expect("a folder to write to");
    fs::write(format!("{folder}/stdout"), &printed).expect("a folder to write to");
    println!(
        "{part}: {} cases, answers {answers:?}, stdin {} bytes, stdout {} bytes",
        calls.len(),
        asked.len(),
        printed.len()
    );
}
