//! The questions that git is asked too, with the two answers.
use std::{collections::BTreeMap, io};

use crate::{
    git::Git,
    gitrules::{CHECK, CRASHED, DANGLING, Item, LIST, NO_ID, OFFER, SEARCH},
    layout::Layout,
    oracle,
    replay::Replay,
    snapshot::{Bytes, Case, Entry, LIMIT, Loose, Question, Snapshot},
    text::{self, hex},
};

/// More than a listing can have.
const STEPS: usize = 60;

pub fn names_items(git: &Git, replay: &Replay, names: Vec<Bytes>) -> io::Result<Vec<Item>> {
    let questions: String = names.iter().map(|n| format!("wellformed {}\n", hex(n))).collect();
    let answers = replay.ask(questions)?;
    let mut items = Vec::new();
    for (name, ours) in names.into_iter().zip(answers.lines()) {
        let git = if git.well_formed(&name)? { "yes" } else { "no" };
        items.push(Item::new(CHECK, name, ours.into(), git.into()));
    }
    Ok(items)
}

/// Full names, well formed.
pub fn full_names(case: &Case) -> Vec<Bytes> {
    let mut out = Vec::new();
    for q in case.groups.iter().flat_map(|g| &g.questions) {
        if let Question::Find(n) = q {
            let pseudo = n.iter().all(|b| b.is_ascii_uppercase() || *b == b'_');
            let full = pseudo || [&b"refs/"[..], b"main-worktree/", b"worktrees/"].iter().any(|p| n.starts_with(p));
            if full && gix_validate::reference::well_formed(n) && n.len() <= 250 && !out.contains(n) {
                out.push(n.clone());
            }
        }
    }
    out
}

pub fn search_items(
    git: &Git,
    replay: &Replay,
    layout: &Layout,
    s: &Snapshot,
    names: &[Bytes],
) -> io::Result<Vec<Item>> {
    if names.is_empty() {
        return Ok(Vec::new());
    }
    let questions: String = names.iter().map(|n| format!("follow {}\n", hex(n))).collect();
    let answers = replay.ask(text::setters(s) + "namespace ~\n" + &questions)?;
    let theirs = git.resolve(&layout.worktree, names)?;
    let word = |id: Option<Bytes>| id.map_or(NO_ID.into(), |id| id.escape_ascii().to_string());
    let mut items = Vec::new();
    for ((name, ours), git) in names.iter().zip(answers.lines()).zip(theirs) {
        let ours = id_of(ours).unwrap_or(NO_ID).to_owned();
        items.push(Item::new(SEARCH, name.clone(), ours, word(git)));
    }
    let git = word(git.rev_parse(&layout.worktree, &names[0])?);
    let ours = items[0].ours.clone();
    items.push(Item::new("rev-parse", names[0].clone(), ours, git));
    Ok(items)
}

fn id_of(answer: &str) -> Option<&str> {
    answer.strip_prefix("id ")?.split(' ').next()
}

/// One item for each name that either lists, and one for the order of those that both list.
pub fn list_items(git: &Git, replay: &Replay, layout: &Layout, s: &Snapshot) -> io::Result<Vec<Item>> {
    let theirs = git.list(&layout.worktree)?;
    let ours = our_list(replay, s)?;
    let in_both = |n: &Bytes| ours.iter().any(|(o, _)| o == n) && theirs.iter().any(|(t, ..)| t == n);
    let order = |names: Vec<&Bytes>| names.into_iter().filter(|n| in_both(n)).map(|n| hex(n) + " ").collect();
    let ours_in_order = order(ours.iter().map(|(n, _)| n).collect());
    let theirs_in_order = order(theirs.iter().map(|(n, ..)| n).collect());
    let mut items = vec![Item::new("order of the list", Vec::new(), ours_in_order, theirs_in_order)];
    let mut all: BTreeMap<&Bytes, [String; 2]> = BTreeMap::new();
    for (name, answer) in &ours {
        all.entry(name).or_default()[0].clone_from(answer);
    }
    for (name, id, last) in &theirs {
        all.entry(name).or_default()[1] = format!("{} {}", id.escape_ascii(), hex(last));
    }
    items.extend(all.into_iter().map(|(name, [ours, git])| Item::new(LIST, name.clone(), ours, git)));
    Ok(items)
}

/// What a namespace holds, as git offers it to others: names whose files, if any, hold a plain id.
pub fn namespace_items(
    git: &Git,
    replay: &Replay,
    layout: &Layout,
    s: &Snapshot,
    namespace: &Bytes,
) -> io::Result<Vec<Item>> {
    let Some(expansion) = oracle::expansion(namespace).filter(|e| e.len() <= LIMIT) else {
        return Ok(Vec::new());
    };
    let set = text::setters(s) + &text::namespace(Some(namespace));
    let listed = replay.ask(format!("{set}list {STEPS}\n"))?;
    let mut all: BTreeMap<Bytes, [String; 2]> = BTreeMap::new();
    for l in listed.lines().map(|l| l.split(' ').collect::<Vec<_>>()).filter(|l| l[0] == "ref" && l[2] == "object") {
        all.entry(unhex(l[1])).or_default()[0] = l[3].into();
    }
    let Some(offered) = git.offered(&layout.worktree, namespace)? else {
        return Ok(vec![Item::new(OFFER, expansion, String::new(), CRASHED.into())]);
    };
    for (name, id) in offered {
        all.entry(name).or_default()[1] = id.escape_ascii().to_string();
    }
    let whole = |name: &Bytes| [&expansion[..], name].concat();
    let plain = |name: &Bytes| files(s).filter(|e| e.name == whole(name)).all(|e| is_plain_id(&e.what));
    let items = all.into_iter().filter(|(name, _)| plain(name));
    let item = |(name, [ours, git]): (Bytes, [String; 2])| Item {
        expansion: expansion.len(),
        ..Item::new(OFFER, whole(&name), ours, git)
    };
    Ok(items.map(item).collect())
}

fn files(s: &Snapshot) -> impl Iterator<Item = &Entry> {
    s.worktree.iter().chain(s.common.iter().flatten())
}

fn is_plain_id(what: &Loose) -> bool {
    match what {
        Loose::File(content) => {
            let line = content.strip_suffix(b"\n").unwrap_or(content);
            line.len() == 40 && line.iter().all(u8::is_ascii_hexdigit)
        }
        _ => false,
    }
}

/// Names and what git would print of them, refused entries left out.
fn our_list(replay: &Replay, s: &Snapshot) -> io::Result<Vec<(Bytes, String)>> {
    let set = text::setters(s) + "namespace ~\n";
    let listed = replay.ask(format!("{set}list {STEPS}\n"))?;
    let listed: Vec<Vec<&str>> =
        listed.lines().map(|l| l.split(' ').collect()).filter(|l: &Vec<_>| l[0] == "ref").collect();
    let followings: String = listed.iter().map(|l| format!("follow {}\n", l[1])).collect();
    let followed = replay.ask(set + &followings)?;
    let answer = |(l, f): (&Vec<&str>, &str)| match l[2] {
        "object" => (unhex(l[1]), format!("{} -", l[3])),
        _ => (unhex(l[1]), f.strip_prefix("id ").unwrap_or(DANGLING).to_owned()),
    };
    Ok(listed.iter().zip(followed.lines()).map(answer).collect())
}

fn unhex(word: &str) -> Bytes {
    (0..word.len() / 2).map(|i| u8::from_str_radix(&word[2 * i..2 * i + 2], 16).expect("it is ours")).collect()
}
