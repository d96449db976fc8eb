//! cargo run --example pages -- FILE.cut: both pages of a cut file's certificate on standard output; status 1 where page one, and so
//! the file or that page, is refused.
use std::process::ExitCode;

fn main() -> ExitCode {
    let Some(name) = std::env::args().nth(1) else {
        eprintln!("usage: pages FILE.cut");
        return ExitCode::from(2);
    };
    let file = match std::fs::read(&name) {
        Ok(file) => file,
        Err(error) => {
            eprintln!("pages: {name}: {error}");
            return ExitCode::from(3);
        }
    };
    let pages = zegrafult::certificate_pages(&file);
    print!("{}", pages.text);
    match pages.refusal {
        None => ExitCode::SUCCESS,
        Some(refusal) => {
            eprintln!("pages: {name}: {refusal}");
            ExitCode::from(1)
        }
    }
}
