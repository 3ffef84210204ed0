//! What must hold after a call.
use crate::call::{Call, Given};
use crate::lent::Outputs;
use crate::memory::Output;
use crate::shape;
use harness::blocks::BLOCK;
use harness::record::{shown, ANSWER_SIZE, STATE_SIZE, TOO_SHORT};
use harness::TWIN;

/// What the twin answers.
pub struct Expected {
    number: u32,
    state: Vec<u8>,
    out: Vec<u8>,
}

pub fn expected(given: &Given, outputs: &Outputs, call: Call) -> Expected {
    let (mut state, mut out) = (outputs.state.before.clone(), outputs.out.before.clone());
    let number = call.make(&TWIN, given, &mut state, &mut out);
    Expected { number, state, out }
}

fn require(holds: bool, what: &str) -> Result<(), String> {
    if holds { Ok(()) } else { Err(what.to_string()) }
}

/// The first `written` bytes of an output: no other may differ from what it was, and all are as the twin's.
fn written<'a>(output: &'a mut Output, written: usize, twin: &[u8]) -> Result<&'a [u8], String> {
    let before = output.before.clone();
    let after = output.after(written).ok_or("bytes around an output changed")?;
    require(after[written..] == before[written..], "bytes of an output changed that may not")?;
    if let Some(place) = after.iter().zip(twin).position(|(a, b)| a != b) {
        return Err(format!("byte {place} of an output is {}, the twin's {}", after[place], twin[place]));
    }
    Ok(&after[..written])
}

fn check_out(given: &Given, outputs: &mut Outputs, call: Call, number: u32, twin: &Expected) -> Result<(), String> {
    let size = if number == TOO_SHORT { 0 } else { ANSWER_SIZE };
    let r = written(&mut outputs.out, size, &twin.out)?;
    let blocks = [given.regions.worktree, given.regions.common, given.regions.packed].map(|r| r.len() / BLOCK);
    require(size == 0 || shape::record_right(call, number, r, blocks), "a record that is not as described")
}

fn check_state(outputs: &mut Outputs, call: Call, number: u32, twin: &Expected) -> Result<(), String> {
    let unwritten = number == TOO_SHORT || call == Call::ListOpen && number != 0;
    let s = written(&mut outputs.state, if unwritten { 0 } else { STATE_SIZE }, &twin.state)?;
    require(unwritten || shape::state_right(s), "a state that is not as described")?;
    if !unwritten {
        outputs.last = s.to_vec();
    }
    Ok(())
}

pub fn check(given: &Given, outputs: &mut Outputs, call: Call, number: u32, twin: &Expected) -> Result<(), String> {
    let (out, state) = (outputs.out.before.len(), outputs.state.before.len());
    let short = call.has_out() && out < ANSWER_SIZE || call.has_state() && state < STATE_SIZE;
    require(short == (number == TOO_SHORT), &format!("answers {number}: 101 is for outputs that are too short, and for all of them"))?;
    require(number == twin.number, &format!("answers {number}, the twin {}", twin.number))?;
    require(call.numbers().contains(&number), &format!("answers {number}, which is no number of this call"))?;
    if call.has_out() {
        check_out(given, outputs, call, number, twin)?;
    }
    if call.has_state() {
        check_state(outputs, call, number, twin)?;
    }
    Ok(())
}

/// What was asked and answered, for a reader.
pub fn explain(given: &Given, outputs: &mut Outputs, call: Call, twin: &Expected) {
    let r = &given.regions;
    let common = if r.has_common { "there" } else { "absent" };
    eprintln!("  regions of {}, {} and {} bytes, common {common}", r.worktree.len(), r.common.len(), r.packed.len());
    eprintln!("  name {:?}", String::from_utf8_lossy(given.name));
    if given.space.given {
        eprintln!("  namespace {:?}", String::from_utf8_lossy(given.space.name));
    }
    if call.has_out() && twin.number != TOO_SHORT {
        eprintln!("  answer {}\n  twin   {}", shown(outputs.out.lent()), shown(&twin.out));
    }
}
