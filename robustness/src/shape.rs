//! What holds of every record and every state, whatever was asked: read off the boundary's description, not off the twin.
use crate::call::Call;
use harness::record::*;

fn zero(s: &[u8]) -> bool {
    s.iter().all(|&b| b == 0)
}

fn digits(s: &[u8]) -> bool {
    s.iter().all(|b| b.is_ascii_digit() || (b'a'..=b'f').contains(b))
}

/// A text of 250 bytes at a place, with its length elsewhere.
fn text_right(s: &[u8], length: usize, place: usize) -> bool {
    let n = at(s, length) as usize;
    n <= LONGEST && zero(&s[place + n..place + LONGEST])
}

/// The region of a refusal 6 to 8, with a block that is there.
fn place_right(call: Call, number: u32, r: &[u8], blocks: [usize; 3]) -> bool {
    match (call, number) {
        (Call::Find | Call::Follow | Call::Fitness, 6..=8) => {
            let region = at(r, REGION) as usize;
            (1..=3).contains(&region) && at(r, BLOCK) < blocks[region - 1] as u64
        }
        _ => zero(&r[REGION..KIND]),
    }
}

fn reference_right(r: &[u8]) -> bool {
    let target = at(r, TARGET_LENGTH);
    let peeled = &r[PEELED..NAME];
    text_right(r, NAME_LENGTH, NAME)
        && text_right(r, TARGET_LENGTH, TARGET)
        && match (at(r, KIND), at(r, HAS_PEELED)) {
            (OBJECT, 0) => target == 0 && digits(&r[ID..PEELED]) && zero(peeled),
            (OBJECT, 1) => target == 0 && digits(&r[ID..PEELED]) && digits(peeled),
            (SYMBOLIC, 0) => zero(&r[ID..NAME]),
            _ => false,
        }
}

/// A record that goes with the number that its call answered.
pub fn record_right(call: Call, number: u32, r: &[u8], blocks: [usize; 3]) -> bool {
    let there = match call {
        Call::Follow => matches!(number, 0 | 13..=15),
        _ => number == 0 && call != Call::Fitness,
    };
    let reference = if there { reference_right(r) } else { zero(&r[KIND..]) };
    at(r, NUMBER) == u64::from(number) && place_right(call, number, r, blocks) && reference
}

/// A state as the calls write it.
pub fn state_right(s: &[u8]) -> bool {
    at(s, 24) <= 1 && text_right(s, 32, 40)
}
