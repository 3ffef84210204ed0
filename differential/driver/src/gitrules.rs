//! The known differences between this reader and git 2.39, each a rule with a name. A rule looks at what either side
//! meets on its way from a name; a difference that none of them explains is a failure.
use gix_validate::reference::well_formed;

use crate::{
    oracle,
    snapshot::{Bytes, Entry, Loose, Packed, Snapshot},
};

/// A name's two answers.
pub struct Item {
    pub question: &'static str,
    /// Whole, with the namespace's expansion in front, whose length follows.
    pub name: Bytes,
    pub expansion: usize,
    pub ours: String,
    pub git: String,
}

impl Item {
    pub fn new(question: &'static str, name: Bytes, ours: String, git: String) -> Self {
        Item { question, name, expansion: 0, ours, git }
    }

    fn in_namespace(&self) -> Option<&[u8]> {
        (self.expansion > 0).then(|| &self.name[self.expansion..])
    }
}

pub const CHECK: &str = "check-ref-format";
pub const LIST: &str = "for-each-ref";
pub const SEARCH: &str = "cat-file";
pub const OFFER: &str = "upload-pack";
/// What a listing shows here while git leaves it out.
pub const DANGLING: &str = "symbolic, leads to no id";

/// What upload-pack answers where it was ended by a signal.
pub const CRASHED: &str = "crashed";
/// What a search answers otherwise.
pub const NO_ID: &str = "no id";

pub struct Rule {
    pub name: &'static str,
    pub text: &'static str,
    holds: fn(&Way, &Item) -> bool,
}

/// In the order in which they are tried.
pub const RULES: [Rule; 13] = [
    Rule {
        name: "leading dash",
        text: "check-ref-format takes a name that begins with a dash for an option",
        holds: |_, i| i.question == CHECK && i.name.starts_with(b"-") && i.git == "no",
    },
    Rule {
        name: "dangling",
        text: "for-each-ref leaves out a symbolic reference that leads to no id",
        holds: |_, i| i.question == LIST && i.ours == DANGLING && i.git.is_empty(),
    },
    Rule {
        name: "shared in worktree",
        text: "for-each-ref and upload-pack do not read shared names in a linked worktree's own directory",
        holds: |w, i| (i.question == LIST || i.question == OFFER) && w.is_shared_in_worktree(&i.name),
    },
    Rule {
        name: "packed HEAD",
        text: "for-each-ref leaves out a packed HEAD",
        holds: |_, i| i.question == LIST && i.name == b"HEAD" && i.git.is_empty(),
    },
    Rule {
        name: "namespace",
        text: "under a namespace upload-pack offers HEAD and names under refs/ only",
        holds: |_, i| {
            i.question == OFFER
                && i.git.is_empty()
                && i.in_namespace().is_some_and(|n| n != b"HEAD" && !n.starts_with(b"refs/"))
        },
    },
    Rule {
        name: "crash",
        text: "upload-pack crashes where a namespace's HEAD leads out of it",
        holds: |_, i| i.question == OFFER && i.git == CRASHED,
    },
    Rule {
        name: "malformed",
        text: "upload-pack offers a malformed file name, with an id of zeros",
        holds: |_, i| i.question == OFFER && !well_formed(&i.name) && i.ours.is_empty() && i.git == "0".repeat(40),
    },
    Rule {
        name: "contents",
        text: "git takes other blanks around a target, ends it at NUL or the file's end, takes any well-formed one, and refuses an id followed by other than a blank",
        holds: |w, _| w.files.iter().any(|e| git_reads(&e.what) != we_read(&e.what)),
    },
    Rule {
        name: "worktree names",
        text: "main-worktree/ and worktrees/w/ are special to git for per-worktree names only, and never for packed ones",
        holds: |w, _| w.sought.iter().any(|n| w.is_worktree_name(n)),
    },
    Rule {
        name: "packed private",
        text: "git also seeks pseudo names and refs/worktree/ in packed-refs",
        holds: |w, _| w.sought.iter().any(|n| w.is_packed_private(n)),
    },
    Rule {
        name: "as it stands",
        text: "git seeks a target that does not look full, like tags/x, as it stands; we with refs/ in front",
        holds: |w, _| w.sought.iter().any(|n| !looks_full(n) && w.is_held(n)),
    },
    Rule {
        name: "candidates",
        text: "a name that leads nowhere is sought on: git tries refs/x and so on for a given name and nothing for a target, we try tags/x and so on for both",
        holds: |w, _| w.sought.iter().any(|n| !w.is_decided(n) && w.is_held_further(n)),
    },
    Rule {
        name: "seeks on",
        text: "git goes on to its next candidate where one is there and leads to no id",
        holds: |w, i| i.ours == NO_ID && w.is_held_further(&i.name),
    },
];

/// What either side may meet from a name on.
pub struct Way<'a> {
    s: &'a Snapshot,
    sought: Vec<Bytes>,
    files: Vec<&'a Entry>,
}

impl<'a> Way<'a> {
    /// A search starts at the name; a listing only follows what the files of the name hold; a name's form needs no way.
    pub fn new(s: &'a Snapshot, item: &Item) -> Self {
        let mut way = Way { s, sought: Vec::new(), files: Vec::new() };
        match item.question {
            CHECK | OFFER => {}
            LIST => way.take_up(std::slice::from_ref(&item.name)),
            _ => way.sought.push(item.name.clone()),
        }
        let mut next = 0;
        while next < way.sought.len() {
            way.meet(&way.sought[next].clone());
            next += 1;
        }
        way
    }

    /// The rule that explains a difference, by its place.
    pub fn explain(&self, item: &Item) -> Option<usize> {
        RULES.iter().position(|r| (r.holds)(self, item))
    }

    /// Whatever either side may read for a name.
    fn meet(&mut self, name: &[u8]) {
        let mut paths = further(name);
        paths.push(name.to_vec());
        paths.extend(without_worktree(name).map(<[u8]>::to_vec));
        self.take_up(&paths);
    }

    /// Take up files, and the names that they hold.
    fn take_up(&mut self, paths: &[Bytes]) {
        let entries = self.s.worktree.iter().chain(self.s.common.iter().flatten());
        for e in entries.filter(|e| paths.contains(&e.name)) {
            self.files.push(e);
            for target in [git_reads(&e.what), we_read(&e.what)].into_iter().flatten() {
                if !target.is_empty() && !self.sought.contains(&target) {
                    self.sought.push(target);
                }
            }
        }
    }

    fn is_held(&self, name: &[u8]) -> bool {
        let mut entries = self.s.worktree.iter().chain(self.s.common.iter().flatten());
        entries.any(|e| e.name == name) || self.is_packed(name)
    }

    fn is_held_shared(&self, name: &[u8]) -> bool {
        let shared = self.s.common.as_ref().unwrap_or(&self.s.worktree);
        let own = |w: &Bytes| name.strip_prefix(&[b"worktrees/", &w[..], b"/"].concat()[..]);
        let nested = self.s.nested.as_ref().and_then(own);
        shared.iter().any(|e| e.name == name)
            || nested.is_some_and(|own| self.s.worktree.iter().any(|e| e.name == own))
            || self.is_packed(name)
    }

    fn is_held_further(&self, name: &[u8]) -> bool {
        further(name).iter().any(|c| self.is_held(c))
    }

    fn is_packed(&self, name: &[u8]) -> bool {
        let is = |line: &Packed| matches!(line, Packed::Record { name: n, .. } if n == name);
        self.s.packed.iter().flatten().any(is)
    }

    /// A file or record of exactly this name decides on both sides: a readable file where the name is read, or a record.
    fn is_decided(&self, name: &[u8]) -> bool {
        let base = match &self.s.common {
            Some(common) if !is_per_worktree(name) => common,
            _ => &self.s.worktree,
        };
        match base.iter().find(|e| e.name == name) {
            Some(e) => we_read(&e.what).is_some() && git_reads(&e.what).is_some(),
            None => self.is_packed(name) && !self.is_packed_private(name),
        }
    }

    fn is_shared_in_worktree(&self, name: &[u8]) -> bool {
        self.s.common.is_some() && !is_per_worktree(name) && self.s.worktree.iter().any(|e| e.name == name)
    }

    /// The name is read differently, and something is there to be read.
    fn is_worktree_name(&self, name: &[u8]) -> bool {
        match without_worktree(name) {
            Some(rest) if is_per_worktree(rest) => self.is_packed(name) || self.is_packed(rest),
            Some(rest) => self.is_held_shared(name) || self.is_held_shared(rest),
            None => name.starts_with(b"worktrees/") && self.is_held_shared(name),
        }
    }

    /// Only a record has the name, and only git seeks it there.
    fn is_packed_private(&self, name: &[u8]) -> bool {
        let is_file = self.s.worktree.iter().any(|e| e.name == name);
        let never = name.starts_with(b"refs/worktree/") || is_pseudo(name);
        never && self.is_packed(name) && !is_file
    }
}

/// Names that either side seeks besides the name itself.
fn further(name: &[u8]) -> Vec<Bytes> {
    let before = ["refs/", "refs/tags/", "refs/heads/", "refs/remotes/", "tags/", "heads/", "remotes/"];
    let mut out: Vec<Bytes> = before.iter().map(|b| [b.as_bytes(), name].concat()).collect();
    out.push([b"refs/remotes/", name, b"/HEAD"].concat());
    out.push([b"remotes/", name, b"/HEAD"].concat());
    out
}

fn without_worktree(name: &[u8]) -> Option<&[u8]> {
    if let Some(rest) = name.strip_prefix(b"main-worktree/") {
        return Some(rest);
    }
    let rest = name.strip_prefix(b"worktrees/")?;
    let slash = rest.iter().position(|b| *b == b'/')?;
    Some(&rest[slash + 1..])
}

fn is_pseudo(name: &[u8]) -> bool {
    name.iter().all(|b| b.is_ascii_uppercase() || *b == b'_')
}

fn looks_full(name: &[u8]) -> bool {
    let dirs = [&b"refs/"[..], b"main-worktree/", b"worktrees/"];
    is_pseudo(name) || dirs.iter().any(|d| name.starts_with(d))
}

fn is_per_worktree(name: &[u8]) -> bool {
    let dirs = [&b"refs/bisect/"[..], b"refs/worktree/", b"refs/rewritten/"];
    is_pseudo(name) || dirs.iter().any(|d| name.starts_with(d))
}

/// A file's symbolic target, or the empty name for an id, as the supplied Rust reads it.
fn we_read(what: &Loose) -> Option<Bytes> {
    match what {
        Loose::File(content) => oracle::decoded(content),
        _ => None,
    }
}

/// The same as git reads it: blanks at the end are dropped, NUL ends the text, blanks follow `ref:` or none.
fn git_reads(what: &Loose) -> Option<Bytes> {
    let Loose::File(content) = what else { return None };
    let blank = |b: &u8| matches!(b, b' ' | b'\t' | b'\n' | b'\r');
    let end = content.iter().rposition(|b| !blank(b)).map_or(0, |i| i + 1);
    let text = content[..end].split(|b| *b == 0).next().unwrap_or(b"");
    if let Some(rest) = text.strip_prefix(b"ref:") {
        let start = rest.iter().position(|b| !blank(b)).unwrap_or(rest.len());
        let target = &rest[start..];
        return well_formed(target).then(|| target.to_vec());
    }
    let id = text.get(..40)?;
    (id.iter().all(u8::is_ascii_hexdigit) && text.get(40).is_none_or(blank)).then(Vec::new)
}
