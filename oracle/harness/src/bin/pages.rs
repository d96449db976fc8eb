//! pages FILE..: prints both pages of each cut file, by the published Rust.

fn main() {
    std::panic::set_hook(Box::new(|_| {}));
    for name in std::env::args().skip(1) {
        print!("{}", harness::pages::printed(&std::fs::read(name).expect("a file")).both);
    }
}
