//! The calls as they are: what they write and what they leave.
use crate::blocks::*;
use cosvint::ffi::*;

/// What outputs are filled with before a call.
const FILL: u8 = 0xa5;

/// A call that is handed its `out`, and answers its number.
type Call<'a> = Box<dyn Fn(&mut [u8]) -> u32 + 'a>;

/// A snapshot whose search and listing give a reference.
struct Lent {
    packed: Vec<u8>,
}

impl Lent {
    fn new() -> Self {
        Lent { packed: record("refs/heads/m", &(ONE.to_owned() + TWO)) }
    }

    /// Each call that has an `out`, by its name, with a fresh state.
    fn calls(&self) -> [(&'static str, Call<'_>); 4] {
        [
            ("find", Box::new(|out| self.search(cosvint_find, b"m", out))),
            ("follow", Box::new(|out| self.search(cosvint_follow, b"m", out))),
            ("fitness", Box::new(|out| self.fitness(out))),
            ("list_step", Box::new(|out| self.step(&mut self.opened(), out))),
        ]
    }

    #[rustfmt::skip]
    fn search(&self, call: Search, name: &[u8], out: &mut [u8]) -> u32 {
        let (e, p) = (b"".as_ptr(), &self.packed);
        // SAFETY: all pointers are of slices, and `out` is borrowed to be written to.
        unsafe {
            call(e, 0, e, 0, false, p.as_ptr(), p.len(), name.as_ptr(), name.len(), e, 0, false, out.as_mut_ptr(), out.len())
        }
    }

    fn fitness(&self, out: &mut [u8]) -> u32 {
        let (e, p) = (b"".as_ptr(), &self.packed);
        // SAFETY: as in `search`.
        unsafe { cosvint_fitness(e, 0, e, 0, false, p.as_ptr(), p.len(), out.as_mut_ptr(), out.len()) }
    }

    fn open(&self, namespace: Option<&[u8]>, state: &mut [u8]) -> u32 {
        let (e, p, n) = (b"".as_ptr(), &self.packed, namespace.unwrap_or(b""));
        let (space, given) = ((n.as_ptr(), n.len()), namespace.is_some());
        let state = (state.as_mut_ptr(), state.len());
        // SAFETY: as in `search`.
        unsafe { cosvint_list_open(e, 0, e, 0, false, p.as_ptr(), p.len(), space.0, space.1, given, state.0, state.1) }
    }

    fn opened(&self) -> [u8; STATE_SIZE] {
        let mut state = [FILL; STATE_SIZE];
        assert_eq!(self.open(None, &mut state), 0);
        state
    }

    fn step(&self, state: &mut [u8], out: &mut [u8]) -> u32 {
        let (e, p) = (b"".as_ptr(), &self.packed);
        let (state, out) = ((state.as_mut_ptr(), state.len()), (out.as_mut_ptr(), out.len()));
        // SAFETY: as in `search`.
        unsafe { cosvint_list_step(e, 0, e, 0, false, p.as_ptr(), p.len(), state.0, state.1, out.0, out.1) }
    }
}

#[test]
fn an_answer_is_as_the_header_lays_it_out() {
    let mut want = vec![0; ANSWER_SIZE];
    want[24] = 1; // an object
    want[32] = 1; // with a peeled id
    want[40] = 12;
    want[56..96].copy_from_slice(ONE.as_bytes());
    want[96..136].copy_from_slice(TWO.as_bytes());
    want[136..148].copy_from_slice(b"refs/heads/m");
    let fit = vec![0; ANSWER_SIZE];
    for (name, call) in Lent::new().calls() {
        let mut out = [FILL; ANSWER_SIZE];
        assert_eq!(call(&mut out), 0, "{name}");
        assert_eq!(out[..], if name == "fitness" { &fit } else { &want }[..], "{name}");
    }
}

#[test]
fn a_symbolic_answer_is_as_the_header_lays_it_out() {
    let worktree = loose("HEAD", "ref: refs/heads/m\n");
    let (e, n, mut out) = (b"".as_ptr(), b"HEAD", [FILL; ANSWER_SIZE]);
    for (call, number) in [(cosvint_find as Search, 0), (cosvint_follow, 13)] {
        let (w, to) = ((worktree.as_ptr(), worktree.len()), (out.as_mut_ptr(), out.len()));
        // SAFETY: all pointers are of slices, and `out` overlaps none of them.
        assert_eq!(number, unsafe { call(w.0, w.1, e, 0, false, e, 0, n.as_ptr(), 4, e, 0, false, to.0, to.1) });
        let mut want = [0; ANSWER_SIZE];
        want[0] = number as u8;
        want[24] = 2;
        want[40] = 4;
        want[48] = 12;
        want[136..140].copy_from_slice(b"HEAD");
        want[386..398].copy_from_slice(b"refs/heads/m");
        assert_eq!(out, want);
    }
}

#[test]
fn refusals_write_the_whole_answer() {
    let mut unfit = Lent::new();
    unfit.packed.extend(packed_error());
    for (name, call) in unfit.calls().into_iter().take(3) {
        let mut out = [FILL; ANSWER_SIZE];
        let mut want = [0; ANSWER_SIZE];
        (want[0], want[8], want[16]) = (7, 3, 1);
        assert_eq!((call(&mut out), out), (7, want), "{name}");
    }
    for (name, number) in [(&b"a..b"[..], 4), (b"nowhere", 100)] {
        let mut out = [FILL; ANSWER_SIZE];
        let mut want = [0; ANSWER_SIZE];
        want[0] = number as u8;
        assert_eq!((Lent::new().search(cosvint_find, name, &mut out), out), (number, want));
    }
}

#[test]
fn bytes_behind_the_record_are_left() {
    for (name, call) in Lent::new().calls() {
        let mut out = [FILL; ANSWER_SIZE + 64];
        assert_eq!(call(&mut out), 0, "{name}");
        assert!(out[..8] == [0; 8] && out[ANSWER_SIZE..] == [FILL; 64], "{name}");
    }
    let mut state = [FILL; STATE_SIZE + 64];
    assert_eq!(Lent::new().open(None, &mut state), 0);
    assert!(state[..STATE_SIZE] == [0; STATE_SIZE] && state[STATE_SIZE..] == [FILL; 64]);
    assert_eq!(Lent::new().step(&mut state, &mut [0; ANSWER_SIZE]), 0);
    assert!(state[16] == 1 && state[STATE_SIZE..] == [FILL; 64]);
}

#[test]
fn a_short_output_is_101_and_nothing_is_written() {
    for length in [0, 1, ANSWER_SIZE - 1] {
        for (name, call) in Lent::new().calls() {
            let mut out = vec![FILL; length];
            assert_eq!(call(&mut out), TOO_SHORT as u32, "{name}");
            assert!(out.iter().all(|&byte| byte == FILL), "{name}");
        }
    }
    let lent = Lent::new();
    for length in [0, 1, STATE_SIZE - 1] {
        let (mut state, mut out) = (vec![FILL; length], [FILL; ANSWER_SIZE]);
        assert_eq!((lent.open(None, &mut state), lent.step(&mut state, &mut out)), (101, 101));
        assert!(state.iter().chain(&out).all(|&byte| byte == FILL));
    }
    let mut state = lent.opened();
    assert_eq!(lent.step(&mut state, &mut [0; ANSWER_SIZE - 1]), 101);
    assert_eq!(state, lent.opened(), "a step that can't be answered does not move");
}

#[test]
fn a_short_output_counts_before_the_regions_and_the_names() {
    let part = Lent { packed: vec![0; 5] };
    assert_eq!(part.search(cosvint_find, b"..", &mut [0; ANSWER_SIZE - 1]), 101);
    assert_eq!(part.fitness(&mut []), 101);
    assert_eq!(part.open(Some(b".."), &mut []), 101);
}

#[test]
fn an_opening_that_is_refused_leaves_the_state() {
    let mut state = [FILL; STATE_SIZE];
    assert_eq!(Lent::new().open(Some(b"n/"), &mut state), 4);
    assert_eq!(Lent { packed: vec![0; 5] }.open(None, &mut state), 1);
    assert_eq!(state, [FILL; STATE_SIZE]);
}

#[test]
fn a_state_is_as_the_header_lays_it_out() {
    let lent = Lent { packed: record("refs/namespaces/n/refs/a", ONE) };
    let mut state = [FILL; STATE_SIZE];
    assert_eq!(lent.open(Some(b"n"), &mut state), 0);
    let mut want = [0; STATE_SIZE];
    want[32] = 18;
    want[40..58].copy_from_slice(b"refs/namespaces/n/");
    assert_eq!(state, want);
    assert_eq!(lent.step(&mut state, &mut [0; ANSWER_SIZE]), 0);
    want[16] = 1;
    assert_eq!(state, want);
    assert_eq!(lent.step(&mut state, &mut [0; ANSWER_SIZE]), 100);
    want[24] = 1;
    assert_eq!(state, want);
}
