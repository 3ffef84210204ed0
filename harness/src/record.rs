//! Answer records and states as the calls write them: where each field stands, and a record made from its parts.
pub const ANSWER_SIZE: usize = 636;
pub const STATE_SIZE: usize = 290;

pub const NUMBER: usize = 0;
pub const REGION: usize = 8;
pub const BLOCK: usize = 16;
pub const KIND: usize = 24;
pub const HAS_PEELED: usize = 32;
pub const NAME_LENGTH: usize = 40;
pub const TARGET_LENGTH: usize = 48;
pub const ID: usize = 56;
pub const PEELED: usize = 96;
pub const NAME: usize = 136;
pub const TARGET: usize = 386;

pub const LONGEST: usize = 250;
pub const NOTHING: u32 = 100;
pub const TOO_SHORT: u32 = 101;

pub type Record = [u8; ANSWER_SIZE];

pub const OBJECT: u64 = 1;
pub const SYMBOLIC: u64 = 2;

/// The number of eight bytes at a place.
pub fn at(s: &[u8], place: usize) -> u64 {
    u64::from_le_bytes(s[place..place + 8].try_into().unwrap())
}

pub fn put(s: &mut [u8], place: usize, n: u64) {
    s[place..place + 8].copy_from_slice(&n.to_le_bytes());
}

/// A record that holds its number alone.
pub fn bare(number: u32) -> Record {
    let mut r = [0; ANSWER_SIZE];
    put(&mut r, NUMBER, number.into());
    r
}

/// A refusal 6 to 8 with its place.
pub fn unfit(number: u32, region: u64, block: u64) -> Record {
    let mut r = bare(number);
    put(&mut r, REGION, region);
    put(&mut r, BLOCK, block);
    r
}

fn named(number: u32, kind: u64, name: &[u8]) -> Record {
    let mut r = bare(number);
    put(&mut r, KIND, kind);
    put(&mut r, NAME_LENGTH, name.len() as u64);
    r[NAME..NAME + name.len()].copy_from_slice(name);
    r
}

/// A reference to an object.
pub fn object(number: u32, name: &[u8], id: &[u8; 40], peeled: Option<&[u8; 40]>) -> Record {
    let mut r = named(number, OBJECT, name);
    r[ID..ID + 40].copy_from_slice(id);
    if let Some(peeled) = peeled {
        put(&mut r, HAS_PEELED, 1);
        r[PEELED..PEELED + 40].copy_from_slice(peeled);
    }
    r
}

/// A symbolic reference.
pub fn symbolic(number: u32, name: &[u8], target: &[u8]) -> Record {
    let mut r = named(number, SYMBOLIC, name);
    put(&mut r, TARGET_LENGTH, target.len() as u64);
    r[TARGET..TARGET + target.len()].copy_from_slice(target);
    r
}

/// A record for a reader: its numbers, then its texts without the zeros behind them.
pub fn shown(r: &[u8]) -> String {
    let numbers: Vec<String> = (0..7).map(|k| at(r, 8 * k).to_string()).collect();
    let text = |from: usize, to: usize| String::from_utf8_lossy(&r[from..to]).trim_end_matches('\0').to_string();
    let (id, peeled, name, target) = (text(ID, PEELED), text(PEELED, NAME), text(NAME, TARGET), text(TARGET, ANSWER_SIZE));
    format!("{} id {id:?} peeled {peeled:?} name {name:?} target {target:?}", numbers.join(" "))
}
