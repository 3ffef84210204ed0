//! The test vectors (docs/VECTORS.md), asked through the boundary: all questions about a snapshot, and those about names that a
//! call answers.
use crate::{file, text};
use cosvint::{full_name, namespace, partial_name, Error, Listing, Reference, Snapshot, State, Target};
use std::fmt::Write;

/// The longest byte string of the format.
const LONGEST: usize = 20_481;

/// What the lines before a question have set.
#[derive(Default)]
struct Set {
    worktree: Vec<u8>,
    common: Option<Vec<u8>>,
    packed: Vec<u8>,
    namespace: Option<Vec<u8>>,
}

/// A byte string, where the field is one.
fn bytes(field: &str) -> Option<Vec<u8>> {
    let digit = |b: u8| char::from(b).to_digit(16).filter(|_| !b.is_ascii_uppercase());
    let pair = |pair: &[u8]| Some((digit(pair[0])? << 4 | digit(*pair.get(1)?)?) as u8);
    match field {
        "-" => Some(Vec::new()),
        _ if field.is_empty() || field.len() > 2 * LONGEST => None,
        _ => field.as_bytes().chunks(2).map(pair).collect(),
    }
}

/// A byte string or what says that it is absent, where the field is one of the two.
fn if_there(field: &str) -> Option<Option<Vec<u8>>> {
    match field {
        "~" => Some(None),
        _ => bytes(field).map(Some),
    }
}

/// A number, where the field is one.
fn number(field: &str) -> Option<u64> {
    field.bytes().all(|b| b.is_ascii_digit()).then(|| field.parse().ok())?
}

fn hex(bytes: &[u8]) -> String {
    if bytes.is_empty() {
        return "-".into();
    }
    bytes.iter().fold(String::new(), |mut out, byte| {
        write!(out, "{byte:02x}").unwrap();
        out
    })
}

fn reference(r: &Reference) -> String {
    let peeled = r.peeled.map_or("~".into(), |id| id.to_string());
    match &r.target {
        Target::Object(id) => format!("{} object {id} {peeled}", hex(r.name.as_bytes())),
        Target::Symbolic(name) => format!("{} symbolic {} {peeled}", hex(r.name.as_bytes()), hex(name.as_bytes())),
    }
}

fn refused(error: &Error) -> String {
    let mut out = format!("refused {}", error.number());
    if let Some(place) = error.place() {
        write!(out, " {} {}", place.region, place.block).unwrap();
    }
    if let Some(last) = error.last() {
        write!(out, " {}", hex(last.name.as_bytes())).unwrap();
    }
    out
}

/// The line of one step: its answer, and the positions behind it.
fn step(listing: &mut Listing<'_>) -> String {
    let answer = match listing.next() {
        Some(Ok(r)) => format!("ref {}", reference(&r)),
        Some(Err(error)) => refused(&error),
        None => "ended".into(),
    };
    let state = listing.state().to_bytes();
    let [w, c, p] = [0, 8, 16].map(|at| u64::from_le_bytes(state[at..at + 8].try_into().unwrap()));
    format!("{answer} at {w} {c} {p}")
}

/// Not judged where the name is over 250 bytes: the question has no bound, the call has.
fn yes_or_no(checked: Result<(), Error>) -> Option<String> {
    match checked {
        Ok(()) => Some("yes".into()),
        Err(Error::TooLong) => None,
        Err(error) => Some(if error == Error::Malformed { "no".into() } else { refused(&error) }),
    }
}

/// The state of a fresh listing in a namespace, whatever the regions are.
fn fresh(namespace: Option<&[u8]>) -> Result<[u8; State::SIZE], Error> {
    Ok(Snapshot::new(b"", None, b"").list(namespace)?.state().to_bytes())
}

/// The namespace's expansion, which a listing's state holds.
fn expanded(space: &[u8]) -> String {
    let opened = fresh(Some(space));
    assert_eq!(opened.clone().map(|_| ()), namespace(space));
    match opened {
        Ok(state) => format!("name {}", hex(&state[40..40 + usize::from(state[32])])),
        Err(error) => refused(&error),
    }
}

impl Set {
    fn snapshot(&self) -> Snapshot<'_> {
        Snapshot::new(&self.worktree, self.common.as_deref(), &self.packed)
    }

    /// Does the line set something?
    fn set(&mut self, fields: &[&str]) -> Option<()> {
        match *fields {
            ["worktree", value] => self.worktree = bytes(value)?,
            ["common", value] => self.common = if_there(value)?,
            ["packed", value] => self.packed = if_there(value)?.unwrap_or_default(),
            ["namespace", value] => self.namespace = if_there(value)?,
            _ => return None,
        }
        Some(())
    }

    fn find(&self, name: &[u8]) -> String {
        match self.snapshot().find(name, self.namespace.as_deref()) {
            Ok(found) => found.map_or("absent".into(), |r| format!("found {}", reference(&r))),
            Err(error) => refused(&error),
        }
    }

    fn follow(&self, name: &[u8]) -> String {
        match self.snapshot().follow(name, self.namespace.as_deref()) {
            Ok(end) => end.map_or("absent".into(), |end| format!("id {} {}", end.id, hex(end.last.name.as_bytes()))),
            Err(error) => refused(&error),
        }
    }

    fn list(&self, steps: u64) -> Vec<Option<String>> {
        match self.snapshot().list(self.namespace.as_deref()) {
            Ok(mut listing) => (0..steps).map(|_| Some(step(&mut listing))).collect(),
            Err(error) => vec![Some(refused(&error))],
        }
    }

    /// One step from these positions.
    fn step(&self, positions: [u64; 3]) -> String {
        let mut state = match fresh(self.namespace.as_deref()) {
            Ok(state) => state,
            Err(_) => return refused(&self.snapshot().list(self.namespace.as_deref()).unwrap_err()),
        };
        for (field, position) in state.chunks_mut(8).zip(positions) {
            field.copy_from_slice(&position.to_le_bytes());
        }
        step(&mut self.snapshot().resume(State::from_bytes(state)))
    }

    /// The answers to a question, where it has the shape of one that is asked here.
    fn answers(&self, fields: &[&str]) -> Option<Vec<Option<String>>> {
        Some(vec![match *fields {
            ["wellformed", name] => yes_or_no(partial_name(bytes(name)?)),
            ["complete", name] => yes_or_no(full_name(bytes(name)?)),
            ["expand", space] => Some(expanded(&bytes(space)?)),
            ["fit"] => Some(self.snapshot().fitness().map_or_else(|error| refused(&error), |()| "fit".into())),
            ["find", name] => Some(self.find(&bytes(name)?)),
            ["follow", name] => Some(self.follow(&bytes(name)?)),
            ["list", steps] => return Some(self.list(number(steps)?)),
            ["step", w, c, p] => Some(self.step([number(w)?, number(c)?, number(p)?])),
            _ => return None,
        }])
    }
}

#[test]
fn the_vectors_are_answered_as_expected() {
    let (questions, expected) = (file("crates/replay/stdin"), text("crates/replay/stdout"));
    let (mut set, mut want, mut judged) = (Set::default(), expected.lines(), 0);
    for line in questions.split(|&byte| byte == b'\n').map(String::from_utf8_lossy) {
        let fields: Vec<&str> = line.split(' ').collect();
        if line.is_empty() || line.starts_with('#') || set.set(&fields).is_some() {
            continue;
        }
        // A line that is not asked here has one answer.
        for answer in set.answers(&fields).unwrap_or(vec![None]) {
            let expected = want.next();
            judged += usize::from(answer.is_some());
            assert!(answer.is_none() || answer.as_deref() == expected, "{line}\n{answer:?}\n{expected:?}");
        }
    }
    assert_eq!(want.next(), None);
    assert!(judged > 5_000, "{judged}");
    println!("{judged} answers as expected");
}
