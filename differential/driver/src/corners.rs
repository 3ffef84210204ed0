//! Cases written by hand: the answers that surprise and are the crate's own, the intended differences from it (both in
//! docs/DIFFERENCES.md), and document 01's corners. Here the answers stand as well, so that a run shows that they are so.
//!
//! In the texts `#1` is the id of forty ones, N the expansion of the namespace `n`, `y*251` that many times `y`, and words
//! in backquotes are byte strings.
use std::{io, path::Path};

use crate::{
    layout::Layout,
    oracle::Oracle,
    replay::Replay,
    snapshot::{Bytes, Entry, Loose, Packed, Question, Snapshot},
    text,
};

struct Corner {
    /// Files, `w:NAME=CONTENT` or `c:NAME=CONTENT`, and records, `p:NAME=ID` or `p:NAME=ID^PEELED`; `c:` alone is an empty
    /// common directory, and `w:NAME` a directory without permission.
    held: &'static [&'static str],
    namespace: Option<&'static str>,
    /// A keyword and a name, or `list`.
    question: &'static str,
    /// The Rust's answer, and this reader's. Lines are separated by `|`; a listing's end is not written.
    rust: &'static str,
    here: &'static str,
}

const fn at(held: &'static [&'static str], question: &'static str, answer: &'static str) -> Corner {
    differs(held, None, question, answer, answer)
}

const fn in_n(held: &'static [&'static str], question: &'static str, answer: &'static str) -> Corner {
    differs(held, Some("n"), question, answer, answer)
}

const fn differs(
    held: &'static [&'static str],
    namespace: Option<&'static str>,
    question: &'static str,
    rust: &'static str,
    here: &'static str,
) -> Corner {
    Corner { held, namespace, question, rust, here }
}

const FOUR: &[&str] = &["w:HEAD=ref: refs/a", "w:refs/a=ref: refs/b", "w:refs/b=ref: refs/c", "w:refs/c=ref: HEAD"];
const FIVE: &[&str] = &[
    "w:HEAD=ref: refs/a",
    "w:refs/a=ref: refs/b",
    "w:refs/b=ref: refs/c",
    "w:refs/c=ref: refs/d",
    "w:refs/d=ref: HEAD",
];
const FIFTH: &[&str] = &[
    "w:HEAD=ref: refs/a",
    "w:refs/a=ref: refs/b",
    "w:refs/b=ref: refs/c",
    "w:refs/c=ref: refs/d",
    "w:refs/d=ref: refs/e",
    "w:refs/e=#1",
];

const CORNERS: &[Corner] = &[
    // An object target ends following, peeled id or not.
    at(&["w:HEAD=ref: refs/tags/v", "p:refs/tags/v=#1^#2"], "follow HEAD", "id #1 `refs/tags/v`"),
    // A malformed file makes the names below it absent in search; the listing shows them.
    at(&["w:refs/heads/a.=#1", "p:refs/heads/a./b=#2"], "find a./b", "absent"),
    at(&["w:refs/heads/a.=#1", "p:refs/heads/a./b=#2"], "list", "ref `refs/heads/a./b` object #2 ~"),
    // A full name is also sought with tags/, heads/ and remotes/ in front.
    at(&["w:tags/refs/heads/a=#1"], "find refs/heads/a", "found `tags/refs/heads/a` object #1 ~"),
    at(&["p:heads/refs/x=#1"], "find refs/x", "found `heads/refs/x` object #1 ~"),
    at(&["p:heads/refs/x=#1"], "find heads/refs/x", "absent"),
    // A packed private name is found through a worktree only.
    at(&["p:refs/worktree/x=#1"], "find refs/worktree/x", "absent"),
    at(&["p:refs/worktree/x=#1"], "find main-worktree/refs/worktree/x", "found `refs/worktree/x` object #1 ~"),
    at(&["p:refs/worktree/x=#1"], "find worktrees/w/refs/worktree/x", "found `refs/worktree/x` object #1 ~"),
    // Whether a worktree exists is never asked.
    at(
        &["w:refs/heads/m=#1"],
        "find worktrees/nobody/refs/heads/m",
        "found `worktrees/nobody/refs/heads/m` object #1 ~",
    ),
    at(&["w:worktrees/v/refs/heads/m=#1"], "find worktrees/v/refs/heads/m", "absent"),
    // A cycle that is none.
    in_n(&["w:Nrefs/s=ref: NNrefs/c", "w:NNrefs/c=ref: refs/c", "w:Nrefs/c=#1"], "follow s", "refused 14 `refs/c`"),
    // An object under a seen name.
    at(
        &["w:HEAD=ref: refs/bisect/x", "w:refs/bisect/x=ref: worktrees/w/refs/bisect/x", "c:", "p:refs/bisect/x=#1"],
        "follow HEAD",
        "refused 14 `refs/bisect/x`",
    ),
    at(
        &["w:HEAD=ref: refs/bisect/x", "w:refs/bisect/x=ref: worktrees/w/refs/bisect/x", "c:", "p:refs/bisect/x=#1"],
        "follow refs/bisect/x",
        "id #1 `refs/bisect/x`",
    ),
    // A private name of a namespace in the common region is listed and not found.
    in_n(&["c:Nrefs/bisect/y=#1"], "list", "ref `refs/bisect/y` object #1 ~"),
    in_n(&["c:Nrefs/bisect/y=#1"], "find refs/bisect/y", "absent"),
    // A name that begins with the expansion twice over: a loose answer bears the candidate's name, a packed one the record's.
    in_n(
        &["w:NHEAD=ref: Nrefs/heads/m", "w:Nrefs/heads/m=ref: NNrefs/heads/m", "w:NNrefs/heads/m=#1"],
        "follow HEAD",
        "refused 14 `refs/heads/m`",
    ),
    in_n(
        &["w:NHEAD=ref: Nrefs/heads/m", "w:Nrefs/heads/m=ref: NNrefs/heads/m", "p:NNrefs/heads/m=#1"],
        "follow HEAD",
        "id #1 `Nrefs/heads/m`",
    ),
    // The same where that name is alike in both, and another is loose or packed.
    in_n(
        &["w:NHEAD=ref: NNrefs/heads/a", "w:NNrefs/heads/a=ref: main-worktree/refs/heads/a", "w:Nrefs/heads/a=#1"],
        "follow HEAD",
        "id #1 `main-worktree/refs/heads/a`",
    ),
    in_n(
        &["w:NHEAD=ref: NNrefs/heads/a", "w:NNrefs/heads/a=ref: main-worktree/refs/heads/a", "p:Nrefs/heads/a=#1"],
        "follow HEAD",
        "refused 14 `refs/heads/a`",
    ),
    // Names of a namespace that are found loose and not packed, or packed and not in common.
    in_n(&["w:NHEAD=#1"], "follow HEAD", "id #1 `HEAD`"),
    in_n(&["w:NHEAD=#1"], "list", "ref `HEAD` object #1 ~"),
    in_n(&["p:NHEAD=#1"], "follow HEAD", "absent"),
    in_n(&["p:NHEAD=#1"], "list", "ref `HEAD` object #1 ~"),
    in_n(&["w:Nrefs/remotes/o/HEAD=#1"], "follow o", "id #1 `refs/remotes/o/HEAD`"),
    in_n(&["p:Nrefs/remotes/o/HEAD=#1"], "follow o", "absent"),
    in_n(&["w:Nremotes/refs/a/HEAD=#1"], "follow refs/a", "id #1 `remotes/refs/a/HEAD`"),
    in_n(&["p:Nremotes/refs/a/HEAD=#1"], "follow refs/a", "absent"),
    in_n(&["c:Nrefs/bisect/x=#1"], "follow refs/bisect/x", "absent"),
    in_n(&["c:", "p:Nrefs/bisect/x=#1"], "follow refs/bisect/x", "id #1 `refs/bisect/x`"),
    // A stripped target is sought unchecked.
    in_n(&["w:NHEAD=ref: N@", "w:Nrefs/heads/@=#1"], "follow HEAD", "id #1 `refs/heads/@`"),
    in_n(&["w:Nrefs/heads/@=#1"], "find @", "refused 4"),
    // A packed HEAD is listed and never found.
    at(&["p:HEAD=#1"], "find HEAD", "absent"),
    at(&["p:HEAD=#1"], "list", "ref `HEAD` object #1 ~"),
    // Junk in an early candidate hides later ones.
    at(&["w:refs/x=junk", "w:refs/tags/x=#1"], "find x", "refused 10"),
    // Misreadings of document 01, and its cases of following.
    at(&["p:refs/remotes/x/HEAD=#1"], "find x", "absent"),
    at(&["w:refs/remotes/x/HEAD=#1"], "find x", "found `refs/remotes/x/HEAD` object #1 ~"),
    at(&["w:refs/a=#1", "p:refs/a/b=#2"], "find refs/a/b", "absent"),
    at(FOUR, "follow HEAD", "refused 14 `HEAD`"),
    at(FIVE, "follow HEAD", "refused 15 `HEAD`"),
    at(FIFTH, "follow HEAD", "refused 15 `refs/e`"),
    at(FIFTH, "follow refs/a", "id #1 `refs/e`"),
    at(&["w:HEAD=ref: refs/a"], "follow HEAD", "refused 13 `HEAD`"),
    // One name in three regions, and private names.
    at(&["w:refs/a=#1", "c:refs/a=#2", "p:refs/a=#3"], "list", "ref `refs/a` object #1 ~"),
    at(&["c:refs/bisect/a=#1", "c:refs/b=#2"], "list", "ref `refs/b` object #2 ~"),
    at(&["w:refs/heads/a=#1", "c:"], "find a", "absent"),
    at(&["p:refs/heads/m=#1"], "find main-worktree/refs/heads/m", "found `refs/heads/m` object #1 ~"),
    in_n(&["w:Nrefs/heads/m=#1"], "find Nrefs/heads/m", "absent"),
    // The loose path is longer than a name may be, the packed one is not.
    in_n(&["p:Nrefs/bisect/y*215=#1"], "find worktrees/w/refs/bisect/y*215", "found `refs/bisect/y*215` object #1 ~"),
    in_n(&["w:Nworktrees/w=#2", "p:Nrefs/bisect/y*215=#1"], "find worktrees/w/refs/bisect/y*215", "absent"),
    // Intended differences.
    differs(&[], None, "find y*251", "absent", "refused 3"),
    differs(&[], Some("n/n/n/n/n/n/n/n/n/n/n/n/n/n"), "list", "", "refused 5"),
    differs(&["w:HEAD=#1", "w:refs/x"], None, "find HEAD", "found `HEAD` object #1 ~", "refused 7 worktree 1"),
    differs(&["w:refs/x"], Some("n"), "list", "", "refused 7"),
    differs(
        &["p:Na=#1", "p:refs/a=#2", "p:Nb=#3"],
        Some("n"),
        "list",
        "ref `b` object #3 ~",
        "ref `a` object #1 ~|ref `b` object #3 ~",
    ),
];

/// Steps asked of a listing.
const STEPS: usize = 6;

/// Ask all; gives their number, or what an answer should have been.
pub fn run(dir: &Path, replay: &Replay) -> io::Result<Result<usize, String>> {
    for corner in CORNERS {
        let answers = [corner.ask_rust(dir)?, corner.ask_replay(replay)?];
        for (who, given, due) in [("the Rust", &answers[0], corner.rust), ("replay", &answers[1], corner.here)] {
            let due: Vec<String> = due.split('|').filter(|l| !l.is_empty()).map(answer_line).collect();
            if *given != due {
                let Corner { held, question, .. } = corner;
                return Ok(Err(format!("{held:?} {question}: {who} gives {given:?}, not {due:?}")));
            }
        }
    }
    Ok(Ok(CORNERS.len()))
}

impl Corner {
    fn question(&self) -> Question {
        match self.question.split_once(' ') {
            Some(("find", name)) => Question::Find(expanded(name)),
            Some(("follow", name)) => Question::Follow(expanded(name)),
            _ => Question::List,
        }
    }

    fn ask_rust(&self, dir: &Path) -> io::Result<Vec<String>> {
        let layout = Layout::new(dir, &snapshot(self.held))?;
        let namespace = self.namespace.map(expanded);
        let answer = Oracle::without_limits(&layout, namespace.as_ref()).ask(&self.question());
        let mut lines = answer.expect("the Rust answers").lines;
        lines.retain(|l| l != "ended");
        Ok(lines)
    }

    fn ask_replay(&self, replay: &Replay) -> io::Result<Vec<String>> {
        let namespace = text::namespace(self.namespace.map(expanded).as_ref());
        let question = text::question(&self.question(), STEPS, b"");
        let answers = replay.ask(format!("{}{namespace}{question}\n", text::setters(&snapshot(self.held))))?;
        let lines = answers.lines().map(|l| l.split(" at ").next().unwrap_or(l));
        Ok(lines.filter(|l| *l != "ended").map(str::to_owned).collect())
    }
}

/// The snapshot that lines like a corner's describe.
pub fn snapshot(held: &[&str]) -> Snapshot {
    let mut s = Snapshot::default();
    held.iter().for_each(|line| hold(&mut s, line));
    s
}

fn hold(s: &mut Snapshot, line: &str) {
    let (region, rest) = line.split_once(':').expect("a region stands in front");
    let (name, content) = rest.split_once('=').unwrap_or((rest, ""));
    let (name, locked) = (expanded(name), !rest.contains('='));
    match region {
        "w" if locked => s.worktree.push(Entry { name, what: Loose::Locked }),
        "w" => s.worktree.push(Entry { name, what: Loose::File(expanded(content)) }),
        "c" => {
            let common = s.common.get_or_insert_default();
            if !name.is_empty() {
                common.push(Entry { name, what: Loose::File(expanded(content)) });
            }
        }
        _ => {
            let (id, peeled) = content.split_once('^').map_or((content, None), |(id, p)| (id, Some(expanded(p))));
            s.packed.get_or_insert_default().push(Packed::Record { name, id: expanded(id), peeled });
        }
    }
}

/// `#1` is an id, N an expansion: no name here has a capital N of its own.
fn expanded(text: &str) -> Bytes {
    let mut out = text.to_owned();
    for digit in '1'..='9' {
        out = out.replace(&format!("#{digit}"), &digit.to_string().repeat(40));
    }
    if let Some((before, times)) = out.split_once("y*") {
        let (times, after) = times.split_at(3);
        out = format!("{before}{}{after}", "y".repeat(times.parse().expect("a number of three digits")));
    }
    while let Some(place) = out.find('N') {
        out.replace_range(place..=place, "refs/namespaces/n/");
    }
    out.into_bytes()
}

fn answer_line(line: &str) -> String {
    let word = |w: &str| match w.strip_prefix('`').and_then(|w| w.strip_suffix('`')) {
        Some(name) => text::hex(&expanded(name)),
        None if w.starts_with('#') => String::from_utf8(expanded(w)).expect("digits"),
        None => w.to_owned(),
    };
    line.split(' ').map(word).collect::<Vec<_>>().join(" ")
}
