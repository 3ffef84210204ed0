//! Generated pairs of snapshots that hold the same references, cut differently between loose and packed.
use std::collections::BTreeSet;

use gix_ref::{bstr::ByteSlice, log as inside};
use gix_validate::reference::complete;

use crate::{
    claims::{self, held, mentioned},
    contents::{id, object, symbolic},
    generate::{self, Style},
    names, oracle,
    rng::Rng,
    snapshot::{Bytes, Case, Entry, LIMIT, Loose, Packed, Snapshot},
};

/// Small, since every name is asked for in several ways.
const STYLE: Style = Style { blocks: 5, names: 0, namespaces: 0, odd: 100 };

#[derive(Clone)]
pub struct Pair {
    pub namespace: Option<Bytes>,
    /// Empty where there is no namespace.
    pub expansion: Bytes,
    pub sides: [Snapshot; 2],
}

/// A generated snapshot, of which some names are cut in two ways; whatever else it has is alike on both sides.
pub fn pair(rng: &mut Rng, in_namespace: bool) -> Pair {
    let style = Style { namespaces: if in_namespace { 100 } else { 0 }, ..STYLE };
    let (mut rest, namespace, expansion) = loop {
        let Case { snapshot, groups } = generate::case(rng, style);
        let namespace = groups[0].namespace.clone();
        // Some namespaces are malformed or leave no room.
        match namespace.as_deref().map_or(Some(Bytes::new()), oracle::expansion) {
            Some(expansion) if expansion.len() < LIMIT / 2 => break (snapshot, namespace, expansion),
            _ => {}
        }
    };
    lead(rng, &mut rest, &expansion);
    let mut differing = differing(rng, &rest, &expansion);
    clean(&mut rest, &mut differing, &expansion);
    let references: Vec<(Bytes, Bytes)> = differing.into_iter().map(|name| (name, id(rng))).collect();
    let sides = [cut(rng, &rest, &references), cut(rng, &rest, &references)];
    Pair { namespace, expansion, sides }
}

/// Make some files symbolic references to held names, or to their own name one expansion further in.
fn lead(rng: &mut Rng, s: &mut Snapshot, expansion: &[u8]) {
    let names: Vec<Bytes> = held(s).into_keys().collect();
    let files = s.worktree.iter_mut().chain(s.common.iter_mut().flatten()).filter(|e| e.what != Loose::Locked);
    for e in files {
        if rng.percent(30) {
            let name = &names[rng.below(names.len())];
            let target = match rng.below(6) {
                0 => [expansion, &e.name].concat(),
                1 | 2 => name.strip_prefix(expansion).unwrap_or(name).to_vec(),
                _ => name.clone(),
            };
            let mut content = symbolic(rng, &target, STYLE.odd);
            content.truncate(LIMIT);
            e.what = Loose::File(content);
        }
    }
}

/// Shared names under refs/, put into the namespace: some that the snapshot mentions, and others.
fn differing(rng: &mut Rng, s: &Snapshot, expansion: &[u8]) -> Vec<Bytes> {
    let mut names: Vec<Bytes> = mentioned(s).into_iter().filter(|_| rng.percent(50)).collect();
    names.extend((0..3).map(|_| names::any(rng)));
    // As the crate has it; the premises are tested without it.
    let shared = |n: &[u8]| inside::category_and_short_name(n.as_bstr()).is_none_or(|(c, _)| !c.is_worktree_private());
    let rests = names.iter().map(|n| n.strip_prefix(expansion).unwrap_or(n));
    let rests: BTreeSet<&[u8]> = rests.filter(|rest| rest.starts_with(b"refs/") && shared(rest)).collect();
    let whole = rests.into_iter().map(|rest| [expansion, rest].concat());
    whole.filter(|name| name.len() <= LIMIT && complete(name)).collect()
}

/// Leave out what a snapshot of a pair may not have, and what it has of the differing names.
fn clean(s: &mut Snapshot, differing: &mut Vec<Bytes>, expansion: &[u8]) {
    let twice = [expansion, expansion].concat();
    let mut kept: Vec<Bytes> = Vec::new();
    let mut keep = |name: &Bytes| {
        let keeps =
            !kept.iter().any(|other| claims::clash(other, name)) && (twice.is_empty() || !name.starts_with(&twice));
        kept.extend(keeps.then(|| name.clone()));
        keeps
    };
    differing.retain(&mut keep);
    claims::retain(s, |_, name| keep(name));
    s.common.as_mut().unwrap_or(&mut s.worktree).retain(|e| !differing.contains(&e.name));
    if let Some(packed) = &mut s.packed {
        packed.retain(|line| line.name().is_some_and(|name| !differing.contains(name)));
        packed.sort_by(|a, b| a.name().cmp(&b.name()));
        packed.dedup_by(|a, b| a.name() == b.name());
    }
}

/// The rest, and each reference packed, loose, or loose over a stale record.
fn cut(rng: &mut Rng, rest: &Snapshot, references: &[(Bytes, Bytes)]) -> Snapshot {
    let mut s = rest.clone();
    for (name, digits) in references {
        let (packed, loose) = rng.pick(&[&(true, false), &(false, true), &(true, true)]);
        let digits = if rng.percent(20) { digits.to_ascii_uppercase() } else { digits.clone() };
        if *packed {
            let (id, peeled) = (if *loose { id(rng) } else { digits.clone() }, rng.percent(35).then(|| id(rng)));
            s.packed.get_or_insert_default().push(Packed::Record { name: name.clone(), id, peeled });
        }
        if *loose {
            let mut content = object(rng, STYLE.odd);
            content[..digits.len()].copy_from_slice(&digits);
            let entry = Entry { name: name.clone(), what: Loose::File(content) };
            s.common.as_mut().unwrap_or(&mut s.worktree).push(entry);
        } else if rng.percent(20) {
            // Packing may leave a directory where a file was.
            s.empty.push((true, name.clone()));
        }
    }
    s.packed.iter_mut().for_each(|p| p.sort_by(|a, b| a.name().cmp(&b.name())));
    s
}
