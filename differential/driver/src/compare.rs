//! Cases asked on both sides, their answers compared and counted.
use std::{io, path::Path};

use crate::{
    blocks,
    features::FEATURES,
    layout::Layout,
    oracle::{self, Answer, By, Oracle},
    replay::Replay,
    snapshot::{Bytes, Case, Group, Question, Snapshot},
    text,
};

/// One question of a case with the Rust's answer.
pub struct Asked {
    pub namespace: Option<Bytes>,
    pub question: Question,
    pub line: String,
    pub expected: Answer,
}

/// A question on which the two differ.
#[derive(Clone, Debug)]
pub struct Difference {
    pub snapshot: Snapshot,
    pub namespace: Option<Bytes>,
    pub question: Question,
    pub rust: Vec<String>,
    pub replay: Vec<String>,
}

/// The highest refusal number and one.
const NUMBERS: usize = 16;

#[derive(Clone, Default)]
pub struct Counts {
    /// By kind of question: compared with the Rust.
    pub compared: [u64; Question::KINDS.len()],
    /// Of these, under a namespace.
    pub in_namespace: [u64; Question::KINDS.len()],
    /// By kind of question and refusal number; a listing's steps one by one.
    pub refused: [[u64; NUMBERS]; Question::KINDS.len()],
    /// By kind of question: searches and followings that found nothing.
    pub absent: [u64; Question::KINDS.len()],
    /// Demand 2's exception, compared all the same.
    pub into_peeled: u64,
    /// Steps of listings.
    pub steps: u64,
    /// Answers of document 01 alone, and of the stand-in for gix-validate.
    pub document: u64,
    pub stand_in: u64,
    /// Snapshots, and how many of them are fit for search.
    pub snapshots: u64,
    pub fit: u64,
    /// Snapshots of which each listed name was sought.
    pub sought: u64,
    /// Snapshots that have each of `FEATURES`.
    pub features: [u64; FEATURES.len()],
    /// Answers of the Rust that do not tell which number is due.
    pub left_out: u64,
}

impl Counts {
    /// Comparisons with the supplied Rust.
    pub fn total(&self) -> u64 {
        self.compared.iter().sum()
    }

    /// How often a number was reached in searches, followings and listings.
    pub fn reached(&self, number: usize) -> u64 {
        self.refused[..3].iter().map(|of| of[number]).sum()
    }

    pub fn add(&mut self, o: &Counts) {
        for k in 0..self.compared.len() {
            self.compared[k] += o.compared[k];
            self.in_namespace[k] += o.in_namespace[k];
            self.absent[k] += o.absent[k];
            for n in 0..NUMBERS {
                self.refused[k][n] += o.refused[k][n];
            }
        }
        self.into_peeled += o.into_peeled;
        self.steps += o.steps;
        self.document += o.document;
        self.stand_in += o.stand_in;
        self.snapshots += o.snapshots;
        self.fit += o.fit;
        self.sought += o.sought;
        self.features.iter_mut().zip(o.features).for_each(|(mine, more)| *mine += more);
        self.left_out += o.left_out;
    }

    fn count(&mut self, a: &Asked) {
        match a.expected.by {
            By::Document => self.document += 1,
            By::StandIn => self.stand_in += 1,
            By::Rust => {
                let kind = a.question.kind();
                self.compared[kind] += 1;
                self.in_namespace[kind] += u64::from(kind < 3 && a.namespace.is_some());
                self.into_peeled += u64::from(a.expected.into_peeled);
                self.absent[kind] += u64::from(a.expected.lines == ["absent"]);
                for number in a.expected.lines.iter().filter_map(|l| text::refusal(l)) {
                    self.refused[kind][number] += 1;
                }
                if a.question == Question::List {
                    self.steps += a.expected.lines.len() as u64;
                }
            }
        }
    }
}

/// Ask the Rust everything about one case.
pub fn ask_rust(dir: &Path, case: &Case, counts: &mut Counts) -> io::Result<Vec<Asked>> {
    let layout = Layout::new(dir, &case.snapshot)?;
    let mut asked = Vec::new();
    let fitness = blocks::fitness(&case.snapshot);
    for Group { namespace, questions } in &case.groups {
        let oracle = Oracle::new(&layout, namespace.as_ref(), &fitness);
        for question in questions {
            let Some(expected) = oracle.ask(question) else {
                counts.left_out += 1;
                continue;
            };
            asked.push(Asked {
                namespace: namespace.clone(),
                line: line(question, &expected),
                question: question.clone(),
                expected,
            });
        }
    }
    Ok(asked)
}

fn line(q: &Question, expected: &Answer) -> String {
    let expansion = match q {
        Question::Strip { namespace, .. } => oracle::expansion(namespace).expect("it was stripped"),
        _ => Vec::new(),
    };
    text::question(q, expected.lines.len(), &expansion)
}

/// The questions of one case for `replay`. A line that has no shape, answered `?`, stands at the end.
pub fn questions(s: &Snapshot, asked: &[Asked]) -> String {
    let mut out = text::setters(s);
    let mut namespace = None;
    for (i, a) in asked.iter().enumerate() {
        if i == 0 || namespace != a.namespace {
            out += &text::namespace(a.namespace.as_ref());
            namespace.clone_from(&a.namespace);
        }
        out += &a.line;
        out.push('\n');
    }
    out + "mark\n"
}

/// One case's answers, taken from the front of `lines`; gives the first question whose answers differ.
pub fn compare<'a>(
    s: &Snapshot,
    asked: &[Asked],
    lines: &mut impl Iterator<Item = &'a str>,
    counts: &mut Counts,
) -> Result<(), Box<Difference>> {
    for a in asked {
        let answer = take(&a.question, a.expected.lines.len(), lines);
        if answer != a.expected.lines {
            return Err(difference(s, a, answer));
        }
        counts.count(a);
    }
    let mark = lines.next();
    if let Some(last) = asked.last().filter(|_| mark != Some("?")) {
        return Err(difference(s, last, vec![format!("after the answer: {mark:?}")]));
    }
    counts.snapshots += 1;
    counts.fit += u64::from(s.fit());
    for (count, (_, has)) in counts.features.iter_mut().zip(FEATURES) {
        *count += u64::from(has(s));
    }
    Ok(())
}

fn difference(s: &Snapshot, a: &Asked, replay: Vec<String>) -> Box<Difference> {
    Box::new(Difference {
        snapshot: s.clone(),
        namespace: a.namespace.clone(),
        question: a.question.clone(),
        rust: a.expected.lines.clone(),
        replay,
    })
}

/// An answer's lines; positions, which the Rust does not have, are left out.
fn take<'a>(q: &Question, steps: usize, lines: &mut impl Iterator<Item = &'a str>) -> Vec<String> {
    let Some(first) = lines.next() else {
        return vec!["no answer".into()];
    };
    if *q != Question::List || !first.contains(" at ") {
        return vec![first.into()];
    }
    let answer = |l: &str| l.split(" at ").next().unwrap_or(l).to_owned();
    let mut out = vec![answer(first)];
    out.extend(lines.take(steps - 1).map(answer));
    out
}

/// Ask one question on both sides.
pub fn ask_both(
    dir: &Path,
    replay: &Replay,
    s: &Snapshot,
    namespace: Option<&Bytes>,
    q: &Question,
) -> io::Result<Option<Difference>> {
    let case =
        Case { snapshot: s.clone(), groups: vec![Group { namespace: namespace.cloned(), questions: vec![q.clone()] }] };
    let mut counts = Counts::default();
    let asked = ask_rust(dir, &case, &mut counts)?;
    let answers = replay.ask(questions(s, &asked))?;
    Ok(compare(s, &asked, &mut answers.lines(), &mut counts).err().map(|d| *d))
}
