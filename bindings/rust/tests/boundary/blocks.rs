//! Blocks as document 01 lays them out ("Blocks").

pub const SIZE: usize = 512;
pub const ONE: &str = "1111111111111111111111111111111111111111";
pub const TWO: &str = "2222222222222222222222222222222222222222";
pub const THREE: &str = "3333333333333333333333333333333333333333";

const LOOSE: u8 = 1;
const UNREAD: u8 = 2;
const WALK_ERROR: u8 = 3;
const RECORD: u8 = 4;
const PACKED_ERROR: u8 = 5;

fn block(kind: u8, name: &[u8], content: &[u8]) -> Vec<u8> {
    let mut out = vec![0; SIZE];
    out[0] = kind;
    out[1] = name.len().try_into().unwrap();
    out[2] = content.len().try_into().unwrap();
    out[8..8 + name.len()].copy_from_slice(name);
    out[258..258 + content.len()].copy_from_slice(content);
    let sum: u32 = (1..).zip(&out[..508]).map(|(weight, &byte)| weight * u32::from(byte)).sum();
    out[508..].copy_from_slice(&sum.to_le_bytes());
    out
}

/// A loose file.
pub fn loose(name: &str, content: &str) -> Vec<u8> {
    block(LOOSE, name.as_bytes(), content.as_bytes())
}

/// A loose file that could not be read.
pub fn unread(name: &str) -> Vec<u8> {
    block(UNREAD, name.as_bytes(), b"")
}

/// A directory that could not be read.
pub fn walk_error() -> Vec<u8> {
    block(WALK_ERROR, b"", b"")
}

/// A packed record: a target, or a target and the peeled id.
pub fn record(name: &str, ids: &str) -> Vec<u8> {
    block(RECORD, name.as_bytes(), ids.as_bytes())
}

/// Something in packed-refs that is no record.
pub fn packed_error() -> Vec<u8> {
    block(PACKED_ERROR, b"", b"")
}

/// A block of zeros, which has no kind.
pub fn damaged() -> Vec<u8> {
    vec![0; SIZE]
}

/// Symbolic references, each to the next of the names, the last one of which is not made.
pub fn chain(names: &[&str]) -> Vec<u8> {
    names.windows(2).flat_map(|pair| loose(pair[0], &format!("ref: {}\n", pair[1]))).collect()
}
