//! Blocks, by document 01, "Blocks".
pub const BLOCK: usize = 512;

/// The sum that a block must hold.
pub fn weighted(b: &[u8]) -> u32 {
    b[..508].iter().zip(1..).map(|(&x, place): (&u8, u32)| place * x as u32).sum()
}

/// Puts the sum of a block right.
pub fn seal(b: &mut [u8]) {
    let sum = weighted(b);
    b[508..].copy_from_slice(&sum.to_le_bytes());
}

pub fn block(kind: u8, name: &[u8], content: &[u8]) -> [u8; BLOCK] {
    let mut b = [0u8; BLOCK];
    b[0] = kind;
    b[1] = name.len() as u8;
    b[2] = content.len() as u8;
    b[8..8 + name.len()].copy_from_slice(name);
    b[258..258 + content.len()].copy_from_slice(content);
    seal(&mut b);
    b
}

/// The name of a block: none where its length is over the longest.
pub fn name_of(b: &[u8]) -> &[u8] {
    match b[1] as usize {
        n if n <= 250 => &b[8..8 + n],
        _ => b"",
    }
}
