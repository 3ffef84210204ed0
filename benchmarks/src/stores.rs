//! Search, following, listing and fitness: of regions, and of the same references in a git directory.
use crate::agree::{listed, regions};
use crate::disc::{Reader, Readers};
use crate::measure::{answers, best, heading, line, ratios, row, times_heading, times_row, Times, Way, Ways};
use crate::natural::{self, Snapshot, Stop};
use crate::references::{Directory, References, Regions};
use harness::record::{self, Record, ANSWER_SIZE, NOTHING, STATE_SIZE};
use harness::{Calls, Space, PROVED, TWIN};
use std::ffi::{CStr, CString};
use std::hint::black_box;

type Open<'a> = [Option<Box<dyn Reader + 'a>>; 2];

/// Search or following, each way.
struct Search {
    call: fn(&Calls, &Snapshot, &[u8], &mut [u8]) -> u32,
    naturally: fn(&Snapshot, &[u8]) -> u32,
    on_disc: fn(&dyn Reader, &CStr, Option<&mut Record>) -> u32,
}

const FIND: Search = Search {
    call: |way, s, name, out| (way.find)(&regions(s), name, &Space::NONE, out),
    naturally: |s, name| match black_box(natural::find(s, name, None)) {
        Ok(Some(_)) => 0,
        Ok(None) => NOTHING,
        Err(refusal) => refusal.number,
    },
    on_disc: |reader, name, answer| reader.find(name, answer),
};

const FOLLOW: Search = Search {
    call: |way, s, name, out| (way.follow)(&regions(s), name, &Space::NONE, out),
    naturally: |s, name| match black_box(natural::follow(s, name, None)) {
        Ok(Some(_)) => 0,
        Ok(None) => NOTHING,
        Err(Stop::At(number, _)) => number,
        Err(Stop::Refused(refusal)) => refusal.number,
    },
    on_disc: |reader, name, answer| reader.follow(name, answer),
};

/// Where following starts.
const START: &CStr = c"chain/a";

fn on_disc<'a>(open: &'a Open, ask: impl Fn(&dyn Reader) -> u64 + Copy + 'a) -> [Option<Way<'a>>; 2] {
    [0, 1].map(|k| open[k].as_deref().map(|r| Box::new(move || ask(r)) as Way))
}

fn ways<'a>(call: impl Fn(&Calls) -> u64 + Copy + 'a, naturally: impl Fn() -> u64 + 'a, on_disc: [Option<Way<'a>>; 2]) -> Ways<'a> {
    let [gix, libgit2] = on_disc;
    [Some(Box::new(move || call(&PROVED))), Some(Box::new(move || call(&TWIN))), Some(Box::new(naturally)), gix, libgit2]
}

impl Search {
    fn ways<'a>(&'a self, s: &'a Snapshot, name: &'a CStr, open: &'a Open) -> Ways<'a> {
        let n = name.to_bytes();
        let call = move |way: &Calls| (self.call)(way, black_box(s), n, black_box(&mut [0; ANSWER_SIZE])).into();
        ways(call, move || (self.naturally)(black_box(s), n).into(), on_disc(open, move |r| (self.on_disc)(r, name, None).into()))
    }

    /// Stops where a reader of the directory gives another record than the proved code.
    fn compare(&self, s: &Snapshot, name: &CStr, reader: &dyn Reader) {
        let (mut proved, mut given) = ([0; ANSWER_SIZE], [0; ANSWER_SIZE]);
        (self.call)(&PROVED, s, name.to_bytes(), &mut proved);
        (self.on_disc)(reader, name, Some(&mut given));
        assert_eq!(record::shown(&proved), record::shown(&given), "{name:?}");
    }
}

/// How many references a whole listing hands out.
fn list(way: &Calls, s: &Snapshot) -> u64 {
    let (r, mut state, mut out) = (&regions(s), [0; STATE_SIZE], [0; ANSWER_SIZE]);
    assert_eq!((way.list_open)(r, &Space::NONE, &mut state), 0);
    let steps = std::iter::repeat_with(|| (way.list_step)(r, &mut state, black_box(&mut out)));
    steps.take_while(|n| *n != NOTHING).filter(|n| *n == 0).count() as u64
}

fn naturally_listed(s: &Snapshot) -> u64 {
    natural::list(s, None).map_or(0, |listing| listing.filter(|r| black_box(r).is_ok()).count() as u64)
}

fn lists<'a>(s: &'a Snapshot, open: &'a Open) -> Ways<'a> {
    ways(|way| list(way, black_box(s)), || naturally_listed(black_box(s)), on_disc(open, |r| r.list(None)))
}

fn fits<'a>(s: &'a Snapshot) -> Ways<'a> {
    let call = |way: &Calls| (way.fitness)(&regions(black_box(s)), black_box(&mut [0; ANSWER_SIZE])).into();
    ways(call, || natural::fitness(black_box(s)).err().map_or(0, |refusal| refusal.number.into()), [None, None])
}

/// The time of a listing for each reference that it hands out: libgit2 hands out fewer.
fn list_times(rounds: usize, ways: &Ways) -> Times {
    let (times, counts) = (best(rounds, ways), answers(ways));
    [0, 1, 2, 3, 4].map(|k| Some(times[k]? / counts[k]? as f64))
}

/// Whether a reader lists what the proved code lists. One that does not read a worktree's own names lists the others, in its own order.
fn compare_listing(s: &Snapshot, reader: &dyn Reader) {
    let mut given = Vec::new();
    reader.list(Some(&mut given));
    let mut proved = listed(&PROVED, &regions(s), &Space::NONE).0;
    proved.pop();
    let own = |r: &Record| r[record::NAME..].starts_with(b"refs/bisect/");
    if !given.iter().any(own) {
        proved.retain(|r| !own(r));
        given.sort_by(|a, b| a[record::NAME..].cmp(&b[record::NAME..]));
    }
    assert!(proved == given, "another listing");
}

/// The references of one size, both ways.
struct Prepared {
    count: usize,
    sought: [(&'static str, CString); 3],
    regions: Regions,
    directory: Option<Directory>,
}

impl Prepared {
    fn new(n: usize, readers: &Readers) -> Prepared {
        let references = References::new(n);
        let sought = references.sought().map(|(what, name)| (what, CString::new(name).expect("no zero byte")));
        let directory = readers.any().then(|| Directory::new(&references).expect("a directory can be made"));
        Prepared { count: references.count(), sought, regions: Regions::new(&references), directory }
    }

    /// The readers of the directory, once they have answered as the proved code does.
    fn open<'a>(&self, readers: &'a Readers) -> Open<'a> {
        let open = self.directory.as_ref().map_or([None, None], |d| readers.open(d));
        let s = &self.regions.snapshot();
        for reader in open.iter().flatten() {
            self.sought.iter().for_each(|(_, name)| FIND.compare(s, name, &**reader));
            FOLLOW.compare(s, START, &**reader);
            compare_listing(s, &**reader);
        }
        open
    }
}

pub fn measure(n: usize, readers: &Readers) {
    let prepared = Prepared::new(n, readers);
    let (s, open) = (&prepared.regions.snapshot(), &prepared.open(readers));
    times_heading(&format!("3 x {n} blocks, µs; a listing in ns for each reference"));
    for (what, name) in &prepared.sought {
        times_row(what, 1e3, &best(100, &FIND.ways(s, name, open)));
    }
    times_row("follow", 1e3, &best(100, &FOLLOW.ways(s, START, open)));
    times_row("fitness", 1e3, &best(100, &fits(s)));
    times_row("list", 1.0, &list_times(30, &lists(s, open)));
}

/// How many references a region has where the turn is looked for; even, so that the last packed one is not loose too.
const SIZES: [usize; 15] = [2, 4, 8, 12, 16, 24, 32, 48, 64, 128, 256, 512, 1024, 2048, 4096];

/// The ratios of the proved code's times to those of the readers of a directory, from a few blocks to full regions.
pub fn turn(readers: &Readers) {
    let sizes = SIZES.map(|n| all_times(n, readers));
    for (way, name) in [(2, "gix-ref"), (3, "libgit2")] {
        let table = sizes.map(|(count, times)| (count, times.map(|t| ratios(&t)[way])));
        if table[0].1[0].is_none() {
            continue;
        }
        heading(&format!("proved/{name}, by blocks in all"), &["blocks", "find, loose", "find, packed", "find, not there", "follow", "list"]);
        for (count, ratios) in &table {
            row(&count.to_string(), ratios);
        }
        line(["ahead up to".to_string()].into_iter().chain([0, 1, 2, 3, 4].map(|column| ahead(&table, column))));
    }
}

/// Up to how many blocks the proved code is the quicker one.
fn ahead(table: &[(usize, [Option<f64>; 5])], column: usize) -> String {
    let quicker = table.iter().take_while(|(_, ratios)| ratios[column].is_some_and(|x| x < 1.0));
    quicker.last().map_or("–".into(), |(count, _)| count.to_string())
}

fn without_twin_and_natural(ways: Ways) -> Ways {
    let [proved, _, _, gix, libgit2] = ways;
    [proved, None, None, gix, libgit2]
}

/// What the proved code and the readers of a directory take.
fn all_times(n: usize, readers: &Readers) -> (usize, [Times; 5]) {
    let prepared = Prepared::new(n, readers);
    let (s, open) = (&prepared.regions.snapshot(), &prepared.open(readers));
    let timed = |ways: Ways<'_>| best(20, &without_twin_and_natural(ways));
    let [loose, packed, nowhere] = prepared.sought.each_ref().map(|(_, name)| timed(FIND.ways(s, name, open)));
    let list = list_times(10, &without_twin_and_natural(lists(s, open)));
    (prepared.count, [loose, packed, nowhere, timed(FOLLOW.ways(s, START, open)), list])
}
