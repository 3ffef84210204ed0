//! Outputs and listing states: any length, any bytes.
use crate::tally::Tally;
use harness::dice::Dice;
use harness::record::{at, put, ANSWER_SIZE, LONGEST, STATE_SIZE};

/// The longest output that is lent.
pub const LONGEST_OUTPUT: usize = 700;

/// A length: too short, just too short, exact, or more than is needed.
fn length(dice: &mut Dice, needed: usize) -> usize {
    match dice.below(100) {
        0..=4 => dice.below(needed),
        5..=7 => needed - 1,
        8..=49 => needed,
        _ => needed + dice.below(LONGEST_OUTPUT - needed + 1),
    }
}

/// An output for a record.
pub fn out(dice: &mut Dice, tally: &mut Tally) -> Vec<u8> {
    let length = length(dice, ANSWER_SIZE);
    tally.fed("out", if length < ANSWER_SIZE { "too short" } else { "636 to 700 bytes" });
    dice.bytes(length)
}

fn position(dice: &mut Dice) -> u64 {
    match dice.below(8) {
        0 => u64::MAX - dice.below(3) as u64,
        1 => 1 << dice.below(64),
        2 => 4094 + dice.below(4) as u64,
        _ => dice.below(16) as u64,
    }
}

/// A state that is nearly one that a call would write.
fn made_up(dice: &mut Dice) -> Vec<u8> {
    let mut s = dice.bytes(STATE_SIZE);
    (0..3).for_each(|k| put(&mut s, 8 * k, position(dice)));
    put(&mut s, 24, if dice.percent(90) { 0 } else { position(dice) });
    let fronts: [&[u8]; 6] =
        [b"", b"", b"refs/", b"refs/namespaces/n/", b"refs/namespaces/n/refs/namespaces/m/", b"refs/heads/a"];
    let front = dice.of(&fronts);
    s[40..40 + front.len()].copy_from_slice(front);
    let length = match dice.below(12) {
        0 => position(dice),
        1 => 248 + dice.below(5) as u64,
        2 => dice.below(LONGEST) as u64,
        _ => front.len() as u64,
    };
    put(&mut s, 32, length);
    s
}

/// A state to step from, of any length: often the one that the last call left.
pub fn state(dice: &mut Dice, last: &[u8], tally: &mut Tally) -> Vec<u8> {
    let goes_on = !last.is_empty() && (at(last, 24) == 0 || dice.percent(10));
    let (kind, mut s) = match dice.below(100) {
        0..=69 if goes_on => ("left by an earlier call", last.to_vec()),
        90.. => ("arbitrary bytes", dice.bytes(STATE_SIZE)),
        _ => ("made up: far positions, wrong lengths", made_up(dice)),
    };
    let length = length(dice, STATE_SIZE);
    let behind = length.saturating_sub(STATE_SIZE);
    s.truncate(length);
    s.extend(dice.bytes(behind));
    tally.fed("state", if length < STATE_SIZE { "too short" } else { kind });
    s
}

/// A state to be opened.
pub fn unopened(dice: &mut Dice, tally: &mut Tally) -> Vec<u8> {
    let length = length(dice, STATE_SIZE);
    tally.fed("state to open", if length < STATE_SIZE { "too short" } else { "290 to 700 bytes" });
    dice.bytes(length)
}

/// How many bytes of a state count: those behind the expansion are ignored.
pub fn counts(state: &[u8]) -> usize {
    match state.len() {
        0..STATE_SIZE => 0,
        _ => 40 + (at(state, 32) as usize).min(LONGEST),
    }
}
