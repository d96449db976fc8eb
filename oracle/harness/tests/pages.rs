//! Both pages by the published Rust beside those of the examples, which a model in Python made.

use harness::pages::{digest, drawn, printed};
use harness::random::Random;

fn example(name: &str) -> Vec<u8> {
    std::fs::read(format!("../../examples/{name}")).expect("an example")
}

#[test]
fn the_example() {
    let told = printed(&example("circuit.cut"));
    assert_eq!((told.number, told.place), (0, 0));
    assert_eq!(told.one.as_bytes(), example("circuit.txt"));
    assert_eq!(told.both.as_bytes(), example("circuit.pages.txt"));
}

#[test]
fn page_one_of_every_example() {
    for name in ["paper", "ghz", "product", "circuit", "refused", "refused-8", "refused-10"] {
        assert_eq!(printed(&example(&format!("{name}.cut"))).one.as_bytes(), example(&format!("{name}.txt")), "{name}");
    }
}

/// The published test values of FNV-1a.
#[test]
fn the_digest() {
    assert_eq!([&b""[..], b"a", b"foobar"].map(digest), [0xCBF29CE484222325, 0xAF63DC4C8601EC8C, 0x85944171F73967E8]);
}

/// The draws reach every answer that a file has, and page two's own.
#[test]
fn the_draws() {
    let rng = &mut Random::new(1);
    let files: Vec<_> = (0..4000).map(|_| printed(&drawn(rng))).collect();
    for number in [0, 1, 2, 3, 4, 5, 7, 8, 10] {
        assert!(files.iter().any(|told| told.number == number), "no file with answer {number}");
    }
    for line in ["\nscaled refused 7 ", "\nscaled refused 8 ", "\nrefused 1 0\n", "\nexact yes\n", "\nexact no\n"] {
        assert!(files.iter().any(|told| told.both.contains(line)), "no file with {line:?}");
    }
}
