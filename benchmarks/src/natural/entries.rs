//! Blocks and what they say.
use super::names::{complete, strip, well_formed};
use harness::blocks::weighted;

fn zero(s: &[u8]) -> bool {
    s.iter().all(|&x| x == 0)
}

pub fn is_damaged(b: &[u8], packed: bool) -> bool {
    let (k, n, c) = (b[0], b[1] as usize, b[2] as usize + b[3] as usize * 256);
    if n > 250 || c > 250 {
        return true;
    }
    let (name, content) = (&b[8..8 + n], &b[258..258 + c]);
    let shape = match (packed, k) {
        (false, 1) => true,
        (false, 2) => c == 0,
        (false, 3) | (true, 5) => n == 0 && c == 0,
        (true, 4) => (c == 40 || c == 80) && content.iter().all(u8::is_ascii_hexdigit) && well_formed(name),
        _ => false,
    };
    !(shape
        && zero(&b[4..8])
        && zero(&b[8 + n..258])
        && zero(&b[258 + c..508])
        && weighted(b) == u32::from_le_bytes(b[508..].try_into().unwrap()))
}

pub enum Target<'a> {
    Id([u8; 40]),
    Name(&'a [u8]),
}

pub struct Reference<'a> {
    pub name: Vec<u8>,
    pub target: Target<'a>,
    pub peeled: Option<[u8; 40]>,
}

fn id(s: &[u8]) -> [u8; 40] {
    let mut id: [u8; 40] = s[..40].try_into().unwrap();
    id.make_ascii_lowercase();
    id
}

fn read(s: &[u8]) -> Result<Target<'_>, u32> {
    if let Some(rest) = s.strip_prefix(b"ref: ") {
        let start = rest.iter().position(|&b| b != b' ').unwrap_or(rest.len());
        let line = rest[start..].split(|b| b"\0\r\n".contains(b)).next().unwrap();
        return match line {
            b"refs/heads/.invalid" => Err(12),
            _ if complete(line) => Ok(Target::Name(line)),
            _ => Err(11),
        };
    }
    let digits = s.iter().take_while(|b| b.is_ascii_hexdigit()).take(41).count();
    if digits == 40 { Ok(Target::Id(id(s))) } else { Err(10) }
}

pub fn name_of(b: &[u8]) -> &[u8] {
    &b[8..8 + b[1] as usize]
}

fn content_of(b: &[u8]) -> &[u8] {
    &b[258..258 + b[2] as usize]
}

/// What a sound block answers under a name, both without the expansion e in front.
pub fn says<'a>(b: &'a [u8], name: &[u8], e: &[u8]) -> Result<Reference<'a>, u32> {
    let (target, peeled) = match b[0] {
        1 => (read(content_of(b))?, None),
        2 => return Err(9),
        _ => (Target::Id(id(content_of(b))), (b[2] == 80).then(|| id(&content_of(b)[40..]))),
    };
    let target = match target {
        Target::Name(n) => Target::Name(strip(n, e)),
        id => id,
    };
    Ok(Reference { name: strip(name, e).to_vec(), target, peeled })
}
