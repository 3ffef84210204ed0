//! Tests through the boundary: what the archive answers, as this crate gives it.
mod blocks;
mod example;
mod listing;
mod pages;
mod raw;
mod refusals;
mod search;
mod vectors;

/// A file of the repository.
fn file(path: &str) -> Vec<u8> {
    let top = concat!(env!("CARGO_MANIFEST_DIR"), "/../../");
    std::fs::read(format!("{top}{path}")).unwrap_or_else(|e| panic!("{path}: {e}"))
}

fn text(path: &str) -> String {
    String::from_utf8(file(path)).unwrap()
}
