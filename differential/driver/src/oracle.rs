//! The supplied Rust's answers, in the text form. Three things are laid over them, each marked in the answer: the limits
//! of 250 bytes (refusals 3 and 5), which the crate does not have; fitness for search, which it does not know; and
//! well-formed and complete names, which come from the stand-in for gix-validate.
use std::{
    cmp::Ordering,
    panic::{AssertUnwindSafe, catch_unwind},
    path::PathBuf,
};

use gix_error::{Error, Message};
use gix_ref::{
    Category, Namespace, Reference, Target,
    bstr::{BStr, ByteSlice},
    file::{self, ReferenceExt},
    log as inside, namespace,
};

use crate::{
    layout::Layout,
    snapshot::{Bytes, LIMIT, Question},
    text::{hex, hex_or_absent},
};

/// Who gave an answer.
#[derive(Clone, Copy, PartialEq, Eq, Debug)]
pub enum By {
    Rust,
    /// Document 01 alone: the limits, and fitness.
    Document,
    /// The stand-in for gix-validate.
    StandIn,
}

#[derive(Clone, Debug, PartialEq, Eq)]
pub struct Answer {
    pub by: By,
    pub lines: Vec<String>,
    /// Demand 2's exception: a symbolic reference was followed into a packed record with a peeled id.
    pub into_peeled: bool,
}

impl Answer {
    fn new(by: By, lines: Vec<String>) -> Self {
        Answer { by, lines, into_peeled: false }
    }
}

/// Past the last entry a listing is asked this often again.
const PAST_END: usize = 3;

pub struct Oracle {
    worktree: PathBuf,
    common: Option<PathBuf>,
    namespace: Option<Bytes>,
    /// Empty where it is not asked about.
    fitness: String,
    limit: usize,
}

impl Oracle {
    pub fn new(layout: &Layout, namespace: Option<&Bytes>, fitness: &str) -> Self {
        Oracle {
            worktree: layout.worktree.clone(),
            common: layout.common.clone(),
            namespace: namespace.cloned(),
            fitness: fitness.to_owned(),
            limit: LIMIT,
        }
    }

    /// Only what the Rust itself answers, to searches and listings.
    pub fn without_limits(layout: &Layout, namespace: Option<&Bytes>) -> Self {
        Oracle { limit: usize::MAX, ..Oracle::new(layout, namespace, "") }
    }

    /// The answer, or none where the Rust's does not tell which number is due.
    pub fn ask(&self, q: &Question) -> Option<Answer> {
        catch_unwind(AssertUnwindSafe(|| self.dispatch(q))).unwrap_or_else(|_| rust("panic".into()))
    }

    fn dispatch(&self, q: &Question) -> Option<Answer> {
        match q {
            Question::Find(n) => self.on_store(Some(n), |store| vec![find(store, n.as_bstr())]),
            Question::Follow(n) => {
                let mut into_peeled = false;
                let mut answer = self.on_store(Some(n), |store| {
                    let line;
                    (line, into_peeled) = follow(store, n.as_bstr());
                    vec![line]
                })?;
                answer.into_peeled = into_peeled;
                Some(answer)
            }
            Question::List => self.on_store(None, list),
            Question::Category(n) => rust(category(n.as_bstr())),
            Question::FullName { category, worktree, short } => {
                full_name(category, worktree.as_deref().unwrap_or(b""), short)
            }
            Question::Expand(n) => expansion_answer(n),
            Question::Strip { namespace, name } => {
                let ns = expand(namespace).ok()?;
                let stripped = inside::strip_namespace(name.as_bstr(), &ns);
                rust(format!("name {}", hex(stripped.as_bstr())))
            }
            Question::Decode(c) => rust(decode(c)),
            Question::Pseudo(n) => rust(yes_no(inside::is_pseudo_ref(n.as_bstr()))),
            Question::Order(a, b) => rust(order(a, b)),
            Question::WellFormed(n) => stand_in(gix_validate::reference::name_partial(n.as_bstr()).is_ok()),
            Question::Complete(n) => stand_in(gix_validate::reference::name(n.as_bstr()).is_ok()),
            Question::Fit => document(self.fitness.clone()),
        }
    }

    /// Rows 3 to 8 of the table, then the store.
    fn on_store(&self, name: Option<&Bytes>, ask: impl FnOnce(&file::Store) -> Vec<String>) -> Option<Answer> {
        let long = |n: Option<&Bytes>| n.is_some_and(|n| n.len() > self.limit);
        if long(name) || long(self.namespace.as_ref()) {
            return limits(3);
        }
        let mut store = file::Store::at_dirs(self.worktree.clone(), self.common.clone());
        if let Some(ns) = &self.namespace {
            match expand(ns) {
                Err(()) => return rust("refused 4".into()),
                Ok(ns) if ns.as_bstr().len() > self.limit && name.is_none_or(|n| is_partial(n)) => return limits(5),
                Ok(ns) => store.namespace = Some(ns),
            }
        }
        let unfit = !self.fitness.is_empty() && self.fitness != "fit";
        if unfit && name.is_some_and(|n| is_partial(n)) {
            return document(self.fitness.clone());
        }
        Some(Answer::new(By::Rust, ask(&store)))
    }
}

/// The expansion that a stripping's question carries.
pub fn expansion(ns: &[u8]) -> Option<Bytes> {
    expand(ns).ok().map(|ns| ns.as_bstr().to_vec())
}

fn expand(ns: &[u8]) -> Result<Namespace, ()> {
    namespace::expand(ns.as_bstr()).map_err(|_| ())
}

fn is_partial(name: &[u8]) -> bool {
    <&gix_ref::PartialNameRef>::try_from(name.as_bstr()).is_ok()
}

fn rust(line: String) -> Option<Answer> {
    Some(Answer::new(By::Rust, vec![line]))
}

fn limits(number: usize) -> Option<Answer> {
    document(format!("refused {number}"))
}

fn document(line: String) -> Option<Answer> {
    Some(Answer::new(By::Document, vec![line]))
}

fn stand_in(yes: bool) -> Option<Answer> {
    Some(Answer::new(By::StandIn, vec![yes_no(yes)]))
}

fn yes_no(yes: bool) -> String {
    if yes { "yes" } else { "no" }.into()
}

fn order(a: &[u8], b: &[u8]) -> String {
    match inside::order(a.as_bstr(), b.as_bstr()) {
        Ordering::Less => "less",
        Ordering::Equal => "equal",
        Ordering::Greater => "greater",
    }
    .into()
}

fn find(store: &file::Store, name: &BStr) -> String {
    match store.try_find(name) {
        Ok(Some(r)) => format!("found {}", reference(&r)),
        Ok(None) => "absent".into(),
        Err(err) => format!("refused {}", number(&err)),
    }
}

/// The answer, and whether demand 2's exception is met.
fn follow(store: &file::Store, name: &BStr) -> (String, bool) {
    let mut r = match store.try_find(name) {
        Ok(Some(r)) => r,
        Ok(None) => return ("absent".into(), false),
        Err(err) => return (format!("refused {}", number(&err)), false),
    };
    let symbolic = matches!(r.target, Target::Symbolic(_));
    let packed = store.cached_packed_buffer().expect("it was read a moment ago");
    let line = match r.follow_to_object_packed(store, packed.as_ref().map(|b| &***b)) {
        Ok(id) => format!("id {id} {}", hex(r.name.as_bstr())),
        Err(err) => match number(&err).as_str() {
            n @ ("13" | "14" | "15") => format!("refused {n} {}", hex(r.name.as_bstr())),
            n => format!("refused {n}"),
        },
    };
    (line, symbolic && r.peeled.is_some())
}

fn list(store: &file::Store) -> Vec<String> {
    let platform = match store.iter() {
        Ok(platform) => platform,
        Err(err) => return vec![format!("refused {}", number(&err))],
    };
    let mut iter = match platform.all() {
        Ok(iter) => iter,
        Err(err) => return vec![format!("refused other: {err}")],
    };
    let mut lines = Vec::new();
    let mut past_end = 0;
    while past_end < PAST_END {
        lines.push(match iter.next() {
            Some(Ok(r)) => format!("ref {}", reference(&r)),
            Some(Err(err)) => format!("refused {}", number(&err)),
            None => {
                past_end += 1;
                "ended".into()
            }
        });
    }
    lines
}

fn reference(r: &Reference) -> String {
    let name = hex(r.name.as_bstr());
    match &r.target {
        Target::Object(id) => {
            let peeled = r.peeled.map_or("~".into(), |id| id.to_string());
            format!("{name} object {id} {peeled}")
        }
        Target::Symbolic(target) => format!("{name} symbolic {} ~", hex(target.as_bstr())),
    }
}

fn category(name: &BStr) -> String {
    let Some((category, short)) = inside::category_and_short_name(name) else {
        return "none".into();
    };
    let worktree = match category {
        Category::LinkedPseudoRef { name } | Category::LinkedRef { name } => Some(name.to_vec()),
        _ => None,
    };
    format!("{} {} {}", word(&category), hex_or_absent(worktree.as_ref()), hex(short))
}

pub const CATEGORIES: [&str; 12] = [
    "Tag",
    "LocalBranch",
    "RemoteBranch",
    "Note",
    "PseudoRef",
    "MainPseudoRef",
    "MainRef",
    "LinkedPseudoRef",
    "LinkedRef",
    "Bisect",
    "Rewritten",
    "WorktreePrivate",
];

fn word(category: &Category<'_>) -> &'static str {
    let named = |word: &&str| *category == from_word(word, linked_to(category));
    CATEGORIES.into_iter().find(|word| named(word)).expect("all are listed")
}

fn linked_to<'a>(category: &Category<'a>) -> &'a BStr {
    match category {
        Category::LinkedPseudoRef { name } | Category::LinkedRef { name } => name,
        _ => "".into(),
    }
}

fn from_word<'a>(word: &str, name: &'a BStr) -> Category<'a> {
    match word {
        "Tag" => Category::Tag,
        "LocalBranch" => Category::LocalBranch,
        "RemoteBranch" => Category::RemoteBranch,
        "Note" => Category::Note,
        "PseudoRef" => Category::PseudoRef,
        "MainPseudoRef" => Category::MainPseudoRef,
        "MainRef" => Category::MainRef,
        "LinkedPseudoRef" => Category::LinkedPseudoRef { name },
        "LinkedRef" => Category::LinkedRef { name },
        "Bisect" => Category::Bisect,
        "Rewritten" => Category::Rewritten,
        "WorktreePrivate" => Category::WorktreePrivate,
        _ => unreachable!("no such category"),
    }
}

fn full_name(category: &str, worktree: &[u8], short: &[u8]) -> Option<Answer> {
    if short.len() > LIMIT {
        return limits(3);
    }
    match from_word(category, worktree.as_bstr()).to_full_name(short.as_bstr()) {
        Ok(n) if n.as_bstr().len() > LIMIT => limits(3),
        Ok(n) => rust(format!("name {}", hex(n.as_bstr()))),
        // The Rust does not give the result, so it is not known whether it is too long as well.
        Err(_) if worktree.len() + short.len() > LIMIT - 30 => None,
        Err(_) => rust("refused 4".into()),
    }
}

fn expansion_answer(ns: &[u8]) -> Option<Answer> {
    if ns.len() > LIMIT {
        return limits(3);
    }
    match expand(ns) {
        Err(()) => rust("refused 4".into()),
        Ok(ns) if ns.as_bstr().len() > LIMIT => limits(5),
        Ok(ns) => rust(format!("name {}", hex(ns.as_bstr()))),
    }
}

/// A content's symbolic target, or the empty name for an id.
pub fn decoded(content: &[u8]) -> Option<Bytes> {
    match inside::decode(content).ok()? {
        Target::Object(_) => Some(Vec::new()),
        Target::Symbolic(n) => Some(n.as_bstr().to_vec()),
    }
}

fn decode(content: &[u8]) -> String {
    match inside::decode(content) {
        Ok(Target::Object(id)) => format!("object {id}"),
        Ok(Target::Symbolic(n)) => format!("symbolic {}", hex(n.as_bstr())),
        Err(err) => format!("refused {}", number(&err)),
    }
}

/// The number document 01 has for the error: that of its newest frame that has one.
fn number(err: &Error) -> String {
    let chain = err.chain();
    let known = chain.iter().find_map(|e| {
        if e.downcast_ref::<file::find::NotFound>().is_some() {
            return Some("13");
        }
        match e.downcast_ref::<Message>()?.text.as_str() {
            "The ref name or path is not a valid ref name" => Some("4"),
            "Could not traverse reference directory" | "Malformed packed reference record" => Some("7"),
            "Could not read reference" => Some("9"),
            "Reference content could not be parsed" => Some("10"),
            "Invalid symbolic reference target" => Some("11"),
            "This reference uses an unsupported storage backend, such as reftable" => Some("12"),
            "Aborting symbolic reference cycle" => Some("14"),
            "Symbolic reference depth limit exceeded" => Some("15"),
            _ => None,
        }
    });
    known.map_or_else(|| format!("other: {err}"), str::to_owned)
}
