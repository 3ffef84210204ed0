//! Times: the ways take turns, so that each meets the same machine, and the best run of each counts.
use std::hint::black_box;
use std::time::Instant;

pub const WAYS: [&str; 5] = ["proved", "twin", "natural", "gix-ref", "libgit2"];

/// A question put one way; the answer is a number.
pub type Way<'a> = Box<dyn Fn() -> u64 + 'a>;

/// The same question in the order of the columns, where there is such a way.
pub type Ways<'a, const N: usize = 5> = [Option<Way<'a>>; N];

pub type Times<const N: usize = 5> = [Option<f64>; N];

/// How long a way is asked in one turn, in nanoseconds: the clock is exact enough, and caches are warm again after the other ways' turns.
const TURN: f64 = 1e5;

/// How long so many questions take, in nanoseconds for each.
fn timed(way: &Way, over: usize, answer: u64) -> f64 {
    let start = Instant::now();
    let same = (0..over).all(|_| black_box(way()) == answer);
    let spent = start.elapsed().as_secs_f64() * 1e9 / over as f64;
    assert!(same, "another answer than before");
    spent
}

/// How many questions fill a turn.
fn enough(way: &Way, answer: u64) -> usize {
    let mut over = 1;
    while timed(way, over, answer) * (over as f64) < TURN {
        over *= 2;
    }
    over
}

/// The best of so many rounds, in nanoseconds for one question.
pub fn best<const N: usize>(rounds: usize, ways: &Ways<N>) -> Times<N> {
    let ready = ways.each_ref().map(|way| way.as_ref().map(|way| (way, way())));
    let over = ready.map(|ready| ready.map_or(0, |(way, answer)| enough(way, answer)));
    let mut best = [None; N];
    for _ in 0..rounds {
        for k in 0..N {
            let Some((way, answer)) = ready[k] else { continue };
            let spent = timed(way, over[k], answer);
            best[k] = Some(best[k].map_or(spent, |t: f64| t.min(spent)));
        }
    }
    best
}

pub fn answers(ways: &Ways) -> [Option<u64>; 5] {
    ways.each_ref().map(|way| way.as_ref().map(|way| way()))
}

fn cell(x: Option<f64>) -> String {
    match x {
        None => "–".into(),
        Some(x) if x >= 100.0 => format!("{x:.0}"),
        Some(x) if x >= 10.0 => format!("{x:.1}"),
        Some(x) => format!("{x:.2}"),
    }
}

pub fn line(cells: impl IntoIterator<Item = String>) {
    println!("| {} |", cells.into_iter().collect::<Vec<_>>().join(" | "));
}

pub fn heading(title: &str, columns: &[&str]) {
    println!("\n### {title}\n");
    line(columns.iter().map(|c| c.to_string()));
    println!("|{}", "---|".repeat(columns.len()));
}

/// The heading of rows of times and ratios.
pub fn times_heading(title: &str) {
    let ratios = WAYS[1..].iter().map(|way| format!("proved/{way}"));
    let columns: Vec<String> = ["what".to_string()].into_iter().chain(WAYS.map(String::from)).chain(ratios).collect();
    heading(title, &columns.iter().map(String::as_str).collect::<Vec<_>>());
}

/// How often as long the proved code takes as each other way.
pub fn ratios(times: &Times) -> [Option<f64>; 4] {
    [1, 2, 3, 4].map(|k| Some(times[0]? / times[k]?))
}

/// A row of times, each divided by the scale.
pub fn times_row(what: &str, scale: f64, times: &Times) {
    let ratios = ratios(times).map(|x| x.map_or("–".into(), |x| format!("{x:.2}")));
    line([what.to_string()].into_iter().chain(times.map(|t| cell(t.map(|t| t / scale)))).chain(ratios));
}

/// A row of figures as they are.
pub fn row(what: &str, figures: &[Option<f64>]) {
    line([what.to_string()].into_iter().chain(figures.iter().map(|x| cell(*x))));
}
