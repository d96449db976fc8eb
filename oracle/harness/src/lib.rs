//! Asks the published Rust what each entry point must give, bit for bit.

pub mod call;
pub mod cases;
pub mod chains_sample;
pub mod oracle;
pub mod pages;
pub mod random;
pub mod sample;
pub mod sites_sample;
pub mod small;
pub mod table;
