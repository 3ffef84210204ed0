//! A difference made as small as it gets: each simpler variant that still differs is taken.
use std::{fmt::Write, path::Path};

use crate::{
    compare::{self, Difference},
    replay::Replay,
    snapshot::{Bytes, Entry, LIMIT, Loose, Packed, Question, Snapshot, stand_together},
    text,
};

pub fn shrink(dir: &Path, replay: &Replay, mut d: Difference) -> Difference {
    let fit = d.snapshot.fit();
    // Each variant is simpler, but a bound is kept all the same.
    for _ in 0..2000 {
        let smaller = variants(&d).into_iter().find_map(|v| {
            let sound = stands(&v.snapshot) && (v.snapshot.fit() || !fit);
            sound
                .then(|| compare::ask_both(dir, replay, &v.snapshot, v.namespace.as_ref(), &v.question).ok().flatten())
                .flatten()
        });
        match smaller {
            Some(smaller) => d = smaller,
            None => break,
        }
    }
    d
}

/// The snapshot can stand on disc, and its records have complete names.
fn stands(s: &Snapshot) -> bool {
    let complete = |line: &Packed| match line {
        Packed::Record { name, .. } => name.len() <= LIMIT && gix_validate::reference::complete(name),
        Packed::Junk(_) => true,
    };
    stand_together(&s.worktree)
        && s.common.as_deref().is_none_or(stand_together)
        && s.packed.iter().flatten().all(complete)
}

fn variants(d: &Difference) -> Vec<Difference> {
    let mut out = Vec::new();
    fewer(d, &mut out);
    simpler(d, &mut out);
    shorter(d, &mut out);
    out
}

/// Without an entry, a region or the namespace.
fn fewer(d: &Difference, out: &mut Vec<Difference>) {
    let mut with = |change: &dyn Fn(&mut Difference)| {
        let mut v = d.clone();
        change(&mut v);
        out.push(v);
    };
    for i in 0..d.snapshot.worktree.len() {
        with(&|v| drop(v.snapshot.worktree.remove(i)));
    }
    for i in 0..d.snapshot.common.as_ref().map_or(0, Vec::len) {
        with(&|v| drop(v.snapshot.common.as_mut().map(|c| c.remove(i))));
    }
    for i in 0..d.snapshot.packed.as_ref().map_or(0, Vec::len) {
        with(&|v| drop(v.snapshot.packed.as_mut().map(|p| p.remove(i))));
    }
    for i in 0..d.snapshot.empty.len() {
        with(&|v| drop(v.snapshot.empty.remove(i)));
    }
    if d.snapshot.nested.is_some() {
        with(&|v| v.snapshot.nested = None);
    }
    if d.snapshot.common.as_ref().is_some_and(Vec::is_empty) {
        with(&|v| v.snapshot.common = None);
    }
    if d.snapshot.packed.as_ref().is_some_and(Vec::is_empty) {
        with(&|v| v.snapshot.packed = None);
    }
    if d.namespace.is_some() {
        with(&|v| v.namespace = None);
    }
}

/// With the simplest contents.
fn simpler(d: &Difference, out: &mut Vec<Difference>) {
    let id = [b'1'].repeat(40);
    for i in 0..d.snapshot.worktree.len() {
        for what in simpler_files(&d.snapshot.worktree[i].what) {
            let mut v = d.clone();
            v.snapshot.worktree[i].what = what;
            out.push(v);
        }
    }
    for i in 0..d.snapshot.common.as_ref().map_or(0, Vec::len) {
        for what in simpler_files(&d.snapshot.common.as_ref().expect("it has files")[i].what) {
            let mut v = d.clone();
            v.snapshot.common.as_mut().expect("it has files")[i].what = what;
            out.push(v);
        }
    }
    for i in 0..d.snapshot.packed.as_ref().map_or(0, Vec::len) {
        let mut v = d.clone();
        if let Packed::Record { id: old, peeled, .. } = &mut v.snapshot.packed.as_mut().expect("it has records")[i]
            && (peeled.take().is_some() || std::mem::replace(old, id.clone()) != id)
        {
            out.push(v);
        }
    }
}

fn simpler_files(what: &Loose) -> Vec<Loose> {
    let simplest = Loose::File([b'1'].repeat(40));
    match what {
        Loose::File(content) => {
            let cut = |n: usize| Loose::File(content[..content.len() - n].to_vec());
            let mut out: Vec<Loose> = [1, 2, 8].into_iter().filter(|n| *n <= content.len()).map(cut).collect();
            out.retain(|w| *w != *what && *what != simplest);
            if *what != simplest {
                out.insert(0, simplest);
            }
            out
        }
        _ => vec![],
    }
}

/// With a part of names replaced everywhere by a shorter one, or left out everywhere.
fn shorter(d: &Difference, out: &mut Vec<Difference>) {
    let mut parts: Vec<Bytes> = Vec::new();
    each(&mut d.clone(), &mut |b| parts.extend(b.split(|c| *c == b'/').map(<[u8]>::to_vec)));
    parts.sort();
    parts.dedup();
    for part in parts.iter().filter(|p| !p.is_empty()) {
        let mut v = d.clone();
        each(&mut v, &mut |b| *b = without(b, part));
        out.push(v);
        if part.len() > 1 {
            let mut v = d.clone();
            each(&mut v, &mut |b| *b = replaced(b, part));
            out.push(v);
        }
    }
}

/// Every name of the difference, and every content.
fn each(d: &mut Difference, f: &mut dyn FnMut(&mut Bytes)) {
    let entries = d.snapshot.worktree.iter_mut().chain(d.snapshot.common.iter_mut().flatten());
    for Entry { name, what } in entries {
        f(name);
        if let Loose::File(content) = what
            && let Some(target) = content.strip_prefix(b"ref: ")
        {
            let mut target = target.to_vec();
            f(&mut target);
            *content = [b"ref: ", &target[..]].concat();
        }
    }
    for line in d.snapshot.packed.iter_mut().flatten() {
        if let Packed::Record { name, .. } = line {
            f(name);
        }
    }
    d.namespace.iter_mut().for_each(&mut *f);
    match &mut d.question {
        Question::Find(n) | Question::Follow(n) | Question::Category(n) | Question::Expand(n) => f(n),
        Question::Pseudo(n) | Question::WellFormed(n) | Question::Complete(n) | Question::Decode(n) => f(n),
        Question::FullName { short, .. } => f(short),
        Question::Strip { namespace: a, name: b } | Question::Order(a, b) => {
            f(a);
            f(b);
        }
        Question::List | Question::Fit => {}
    }
}

fn without(name: &[u8], part: &[u8]) -> Bytes {
    let kept: Vec<&[u8]> = name.split(|c| *c == b'/').filter(|p| *p != part).collect();
    kept.join(&b'/')
}

fn replaced(name: &[u8], part: &[u8]) -> Bytes {
    let short = &part[..1];
    let parts: Vec<&[u8]> = name.split(|c| *c == b'/').map(|p| if p == part { short } else { p }).collect();
    parts.join(&b'/')
}

/// The difference for a reader, then as lines for `replay`.
pub fn show(d: &Difference) -> String {
    let mut out = show_snapshot(&d.snapshot);
    let _ = writeln!(out, "  namespace {}", d.namespace.as_ref().map_or("none".into(), |n| plain(n)));
    let _ = writeln!(out, "  question {}", plain_question(d));
    show_answers(&mut out, d);
    out
}

fn plain(bytes: &[u8]) -> String {
    format!("`{}`", bytes.escape_ascii())
}

pub fn show_snapshot(s: &Snapshot) -> String {
    let mut out = String::new();
    show_entries(&mut out, "worktree", &s.worktree);
    match &s.common {
        Some(common) => show_entries(&mut out, "common", common),
        None => out += "  no common directory\n",
    }
    if let Some(name) = &s.nested {
        let _ = writeln!(out, "  the worktree's directory is worktrees/{} of the common one", plain(name));
    }
    for line in s.packed.iter().flatten() {
        let _ = writeln!(out, "  packed {}", packed_line(line));
    }
    for (in_common, name) in &s.empty {
        let side = if *in_common { "common" } else { "worktree" };
        let _ = writeln!(out, "  {side} has an empty directory {}", plain(name));
    }
    out
}

fn show_entries(out: &mut String, region: &str, entries: &[Entry]) {
    for e in entries {
        let what = match &e.what {
            Loose::File(content) => plain(content),
            Loose::Unreadable => "without permission".into(),
            Loose::Locked => "a directory without permission".into(),
        };
        let _ = writeln!(out, "  {region} {} holds {what}", plain(&e.name));
    }
}

fn packed_line(line: &Packed) -> String {
    match line {
        Packed::Record { name, id, peeled } => format!(
            "`{}` {} peeled {}",
            name.escape_ascii(),
            id.escape_ascii(),
            peeled.as_ref().map_or("none".into(), |p| p.escape_ascii().to_string())
        ),
        Packed::Junk(line) => format!("error: `{}`", line.escape_ascii()),
    }
}

/// The question's line with its byte strings in plain text.
fn plain_question(d: &Difference) -> String {
    plain_line(&question_line(d))
}

fn plain_line(line: &str) -> String {
    let mut last = "";
    let word = |w| {
        let number = matches!(last, "refused" | "list");
        last = w;
        if number { w.to_owned() } else { plain_word(w) }
    };
    line.split(' ').map(word).collect::<Vec<_>>().join(" ")
}

/// Hexadecimal words in plain text, ids and all others as they are.
fn plain_word(word: &str) -> String {
    let is_hex = word.len().is_multiple_of(2)
        && word.len() != 40
        && word.bytes().all(|b| matches!(b, b'0'..=b'9' | b'a'..=b'f'));
    if !is_hex || word.is_empty() {
        return word.into();
    }
    let bytes: Bytes =
        (0..word.len() / 2).map(|i| u8::from_str_radix(&word[2 * i..2 * i + 2], 16).unwrap_or(0)).collect();
    plain(&bytes)
}

fn question_line(d: &Difference) -> String {
    let expansion = match &d.question {
        Question::Strip { namespace, .. } => crate::oracle::expansion(namespace).unwrap_or_default(),
        _ => Vec::new(),
    };
    text::question(&d.question, d.rust.len(), &expansion)
}

fn show_answers(out: &mut String, d: &Difference) {
    for (who, lines) in [("the Rust", &d.rust), ("replay", &d.replay)] {
        for line in lines {
            let _ = writeln!(out, "  {who}: {}", plain_line(line));
        }
    }
    let _ = write!(out, "For replay:\n{}{}", text::setters(&d.snapshot), text::namespace(d.namespace.as_ref()));
    let _ = writeln!(out, "{}", question_line(d));
}
