//! Listings: their order, their end, and states that are kept.
use crate::blocks::*;
use cosvint::{Error, Reference, Snapshot, State};

type Entry = Result<Reference, Error>;

/// Entries of every region, refused ones among them.
fn regions() -> [Vec<u8>; 3] {
    let worktree = [loose("refs/bisect/x", ONE), loose("refs/d", "junk"), loose("refs/worktree/z", TWO)].concat();
    let common =
        [loose("refs/a", "ref: refs/b\n"), loose("refs/bisect/y", TWO), unread("refs/c"), walk_error()].concat();
    let packed = [record("refs/a", TWO), record("refs/b", &(ONE.to_owned() + THREE)), packed_error()].concat();
    [worktree, common, packed]
}

fn shown(entry: &Entry) -> String {
    match entry {
        Ok(reference) => format!("{} {}", reference.name, reference.target),
        Err(error) => error.number().to_string(),
    }
}

#[test]
fn entries_come_by_name_and_errors_in_their_place() {
    let [worktree, common, packed] = regions();
    let listing = Snapshot::new(&worktree, Some(&common), &packed).list(None).unwrap();
    let shown: Vec<_> = listing.map(|entry| shown(&entry)).collect();
    let want = [
        "refs/a -> refs/b".to_owned(),
        format!("refs/b {ONE}"),
        "7".to_owned(), // packed, with loose ones waiting
        format!("refs/bisect/x {ONE}"),
        "9".to_owned(),
        "7".to_owned(), // common, before what waits in worktree
        "10".to_owned(),
        format!("refs/worktree/z {TWO}"),
    ];
    assert_eq!(shown, want);
}

#[test]
fn a_listing_that_has_ended_stays_ended() {
    let packed = record("refs/a", ONE);
    let mut listing = Snapshot::new(b"", None, &packed).list(None).unwrap();
    assert_eq!(listing.by_ref().count(), 1);
    let ended = listing.state().clone();
    assert_eq!((listing.next(), listing.next()), (None, None));
    assert_eq!(listing.state(), &ended);
    let more = [packed, record("refs/b", ONE)].concat();
    assert_eq!(Snapshot::new(b"", None, &more).resume(ended).next(), None, "even where the region has grown");
}

#[test]
fn a_state_kept_after_any_step_goes_on_where_it_stood() {
    let [worktree, common, packed] = regions();
    let snapshot = Snapshot::new(&worktree, Some(&common), &packed);
    let whole: Vec<Entry> = snapshot.list(None).unwrap().collect();
    for taken in 0..=whole.len() {
        let mut first = snapshot.list(None).unwrap();
        let before: Vec<Entry> = first.by_ref().take(taken).collect();
        let kept: [u8; State::SIZE] = first.state().to_bytes();
        let after: Vec<Entry> = snapshot.resume(State::from_bytes(kept)).collect();
        assert_eq!([before, after].concat(), whole, "after {taken} steps");
    }
}

#[test]
fn a_state_keeps_its_namespace() {
    let packed =
        ["refs/b", "refs/namespaces/n/refs/a", "refs/namespaces/n/refs/c"].map(|name| record(name, ONE)).concat();
    let snapshot = Snapshot::new(b"", None, &packed);
    let mut listing = snapshot.list(Some(b"n")).unwrap();
    assert_eq!(listing.next().unwrap().unwrap().name, "refs/a");
    let kept = listing.state().to_bytes();
    let rest: Vec<_> = snapshot.resume(State::from_bytes(kept)).map(|r| r.unwrap().name.to_string()).collect();
    assert_eq!(rest, ["refs/c"]);
}

#[test]
fn a_step_refused_1_or_2_is_told_once_and_keeps_the_state() {
    let good = record("refs/a", ONE);
    let state = Snapshot::new(b"", None, &good).list(None).unwrap().state().clone();
    for (bytes, want) in [(513, Error::NotWhole), (4097 * SIZE, Error::TooManyBlocks)] {
        let wrong = vec![0; bytes];
        let mut listing = Snapshot::new(&wrong, None, b"").resume(state.clone());
        assert_eq!(listing.next(), Some(Err(want)));
        assert_eq!((listing.next(), listing.next()), (None, None));
        assert_eq!(listing.state(), &state);
        let resumed = Snapshot::new(b"", None, &good).resume(listing.state().clone());
        assert_eq!(resumed.count(), 1);
    }
}

/// Numbers without a pattern (xorshift).
struct Random(u64);

impl Random {
    fn next(&mut self) -> u64 {
        self.0 ^= self.0 << 13;
        self.0 ^= self.0 >> 7;
        self.0 ^= self.0 << 17;
        self.0
    }

    /// Any bytes, with positions that are often within a region and an `ended` that is often zero.
    fn state(&mut self) -> [u8; State::SIZE] {
        let mut bytes = std::array::from_fn(|_| self.next() as u8);
        for at in [0, 8, 16, 24, 32] {
            let few = self.next() % 5;
            if self.next() % 4 > 0 {
                bytes[at..at + 8].copy_from_slice(&few.to_le_bytes());
            }
        }
        bytes
    }
}

fn number(bytes: &[u8], at: usize) -> u64 {
    u64::from_le_bytes(bytes[at..at + 8].try_into().unwrap())
}

/// The state in the form in which a step writes it.
fn settled(mut bytes: [u8; State::SIZE]) -> [u8; State::SIZE] {
    let ended = u64::from(number(&bytes, 24) != 0);
    let length = number(&bytes, 32).min(250);
    bytes[24..32].copy_from_slice(&ended.to_le_bytes());
    bytes[32..40].copy_from_slice(&length.to_le_bytes());
    bytes[40 + length as usize..].fill(0);
    bytes
}

#[test]
fn any_bytes_are_a_state() {
    let [worktree, common, packed] = regions();
    let snapshot = Snapshot::new(&worktree, Some(&common), &packed);
    let mut random = Random(0x9e37_79b9_7f4a_7c15);
    let (mut entries, mut ended) = (0, 0);
    for _ in 0..20_000 {
        let bytes = random.state();
        let mut raw = snapshot.resume(State::from_bytes(bytes));
        let mut plain = snapshot.resume(State::from_bytes(settled(bytes)));
        let entry = raw.next();
        assert_eq!(entry, plain.next());
        assert_eq!(raw.state(), plain.state());
        assert_eq!(raw.state().to_bytes(), settled(raw.state().to_bytes()), "states are written in one form");
        entries += usize::from(entry.is_some());
        ended += usize::from(number(&bytes, 24) != 0);
        assert!(number(&bytes, 24) == 0 || entry.is_none());
        assert!(raw.count() <= 10, "no more entries than blocks");
    }
    assert!(entries > 1_000 && ended > 1_000, "{entries} {ended}");
}

#[test]
fn a_step_refused_1_or_2_keeps_what_any_bytes_mean() {
    let (part, many) = (vec![0; 511], vec![0; 4097 * SIZE]);
    let mut random = Random(0x2545_f491_4f6c_dd1d);
    for _ in 0..1_000 {
        let bytes = random.state();
        for (wrong, want) in [(&part, Error::NotWhole), (&many, Error::TooManyBlocks)] {
            let mut listing = Snapshot::new(b"", Some(wrong), b"").resume(State::from_bytes(bytes));
            assert_eq!(listing.next(), Some(Err(want)), "even where it has ended");
            assert_eq!(listing.state().to_bytes(), settled(bytes));
        }
    }
}
