//! The certificate as text, over the examples and their stored printouts.
use std::fs;

use zegrafult::{certificate, certificate_pages, Refusal};

fn example(name: &str) -> Vec<u8> {
    fs::read(format!("../../examples/{name}")).unwrap()
}

#[test]
fn page_one_is_what_is_stored() {
    let mut seen = 0;
    for entry in fs::read_dir("../../examples").unwrap() {
        let path = entry.unwrap().path();
        if path.extension() != Some("cut".as_ref()) {
            continue;
        }
        let page = certificate(&fs::read(&path).unwrap());
        assert_eq!(page.text, fs::read_to_string(path.with_extension("txt")).unwrap(), "{path:?}");
        let refused = page.refusal.map(|refusal| format!("refused {} {}\n", refusal.number(), refusal.place()));
        assert_eq!(refused.as_ref(), page.text.starts_with("refused").then_some(&page.text), "{path:?}");
        seen += 1;
    }
    assert!(seen >= 13);
}

#[test]
fn both_pages_are_what_is_stored() {
    let pages = certificate_pages(&example("circuit.cut"));
    assert_eq!(pages.text.as_bytes(), example("circuit.pages.txt"));
}

#[test]
fn page_one_stands_in_both() {
    for name in ["paper", "ghz", "product", "circuit"] {
        let file = example(&format!("{name}.cut"));
        let both = certificate_pages(&file).text;
        let one = certificate(&file).text;
        let lines: Vec<&str> = both.lines().collect();
        assert_eq!(lines[..2], ["page 1", lines[1]]);
        assert!(both[both.find("cut ").unwrap()..].starts_with(&one), "{name}");
        assert_eq!(both.matches(lines[1]).count(), 2, "{name}: the digest is on both pages");
    }
}

#[test]
fn a_file_is_refused_as_a_whole_or_by_pages() {
    for name in ["refused", "refused-1", "refused-2", "refused-3", "refused-4", "refused-5", "refused-7", "refused-10"] {
        let file = example(&format!("{name}.cut"));
        assert_eq!(certificate_pages(&file), certificate(&file), "{name}");
    }
    let file = example("refused-8.cut");
    let pages = certificate_pages(&file);
    assert_eq!(pages.refusal, Some(Refusal::NoWeight));
    assert!(pages.text.contains("\nrefused 8 0\npage 2\n") && pages.text.contains("\nscaled refused 8 0\n"));
}

#[test]
fn no_bytes_and_many() {
    for file in [vec![], vec![0; 100_000]] {
        assert_eq!(certificate_pages(&file).text, "refused 10 0\n");
    }
}
