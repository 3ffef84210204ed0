//! Generated snapshots that can stand on disc, and questions about them.
use crate::{
    contents::{good_content, id, object, odd_content, symbolic},
    names, oracle,
    rng::Rng,
    snapshot::{Bytes, Case, Entry, Group, LIMIT, Loose, Packed, Question, Snapshot, can_stand, stand_together},
};

/// What cases are like.
#[derive(Clone, Copy)]
pub struct Style {
    /// Blocks a region, at most; twice as many where two are joined, and of packed records.
    pub blocks: usize,
    /// Names asked for.
    pub names: usize,
    /// How many in a hundred have a namespace.
    pub namespaces: usize,
    /// How many files in a hundred may hold more than a plain id or target and LF.
    pub odd: usize,
}

struct Maker<'a> {
    rng: &'a mut Rng,
    style: Style,
    s: Snapshot,
    /// The namespace's expansion, empty where there is none.
    expansion: Bytes,
    /// Names worth asking for.
    asked: Vec<Bytes>,
}

pub fn case(rng: &mut Rng, style: Style) -> Case {
    let namespace = rng.percent(style.namespaces).then(|| names::namespace(rng));
    let expansion = namespace.as_deref().and_then(oracle::expansion).unwrap_or_default();
    let mut m = Maker { rng, style, s: Snapshot::default(), expansion, asked: Vec::new() };
    m.snapshot();
    m.case(namespace)
}

impl Maker<'_> {
    fn snapshot(&mut self) {
        if self.rng.percent(55) {
            self.s.common = Some(Vec::new());
            if self.rng.percent(35) {
                self.s.nested = Some(b"w".to_vec());
            }
        }
        if self.rng.percent(80) {
            self.s.packed = Some(Vec::new());
        }
        for _ in 0..self.rng.below(3) {
            self.chain();
        }
        for _ in 0..self.rng.below(self.style.blocks) {
            self.loose_file();
        }
        let records = if self.rng.percent(20) { 2 * self.style.blocks } else { self.style.blocks };
        for _ in 0..self.rng.below(records) {
            self.packed_record();
        }
        for _ in 0..self.rng.below(3) {
            let (side, name) = (self.rng.percent(50), names::held(self.rng, &self.expansion));
            if can_stand(&name) {
                self.s.empty.push((side, name));
            }
        }
        self.sort_packed();
        if self.rng.percent(10) {
            self.make_unfit();
        }
        self.make_standing();
    }

    /// References that lead one to the next, at most six symbolic ones, and then an end.
    fn chain(&mut self) {
        let length = 1 + self.rng.below(6);
        let names: Vec<Bytes> = (0..=length).map(|_| names::any(self.rng)).collect();
        for i in 0..length {
            let target = self.target(&names[i + 1]);
            let content = symbolic(self.rng, &target, self.style.odd);
            self.place(&names[i], Loose::File(content));
        }
        self.asked.push(names[0].clone());
        self.asked.push(names[self.rng.below(length)].clone());
        self.end(&names, length);
    }

    fn end(&mut self, names: &[Bytes], length: usize) {
        let last = &names[length];
        match self.rng.below(20) {
            0..=6 => {
                let again = self.rng.below(length);
                let target = self.target(&names[again]);
                let content = symbolic(self.rng, &target, self.style.odd);
                self.place(last, Loose::File(content));
            }
            7..=9 => {
                let content = object(self.rng, self.style.odd);
                self.place(last, Loose::File(content));
            }
            10..=14 => {
                let name = names::inside(self.rng, &self.expansion, packed_form(last));
                self.record(name);
            }
            15 => self.place(last, Loose::Unreadable),
            16 | 17 if self.rng.percent(self.style.odd) => {
                let content = odd_content(self.rng);
                self.place(last, Loose::File(content));
            }
            _ => {}
        }
    }

    /// How a file writes the name it leads to.
    fn target(&mut self, name: &[u8]) -> Bytes {
        let name = match self.rng.below(12) {
            0 => name.strip_prefix(b"refs/").unwrap_or(name).to_vec(),
            1 if name.starts_with(b"refs/") => [b"main-worktree/", name].concat(),
            2 if name.starts_with(b"refs/") => [b"worktrees/w/", name].concat(),
            _ => name.to_vec(),
        };
        if self.rng.percent(50) { name } else { [&self.expansion[..], &name].concat() }
    }

    /// Put a file where search reads the name, mostly.
    fn place(&mut self, name: &[u8], what: Loose) {
        let (in_worktree, path) = home(name);
        let path = if self.rng.percent(92) { [&self.expansion[..], path].concat() } else { path.to_vec() };
        let in_worktree = in_worktree ^ self.rng.percent(5);
        self.add(in_worktree, Entry { name: path, what });
    }

    fn loose_file(&mut self) {
        let name = match self.rng.below(10) {
            0..=2 => match self.any_held() {
                Some(name) if self.rng.percent(80) => name,
                Some(name) => [&name[..], b"/", names::part(self.rng)].concat(),
                None => names::held(self.rng, &self.expansion),
            },
            _ => names::held(self.rng, &self.expansion),
        };
        let what = match self.rng.below(20) {
            0 | 1 => Loose::Unreadable,
            2..=4 if self.rng.percent(self.style.odd) => Loose::File(odd_content(self.rng)),
            5..=8 => {
                let name = self.any_held().unwrap_or_else(|| names::any(self.rng));
                let target = self.target(&name);
                Loose::File(symbolic(self.rng, &target, self.style.odd))
            }
            _ => Loose::File(object(self.rng, self.style.odd)),
        };
        let in_worktree = self.rng.percent(50);
        self.add(in_worktree, Entry { name, what });
    }

    fn any_held(&mut self) -> Option<Bytes> {
        let loose = self.s.worktree.iter().chain(self.s.common.iter().flatten());
        let all: Vec<&Bytes> =
            loose.map(|e| &e.name).chain(self.s.packed.iter().flatten().filter_map(Packed::name)).collect();
        (!all.is_empty()).then(|| all[self.rng.below(all.len())].clone())
    }

    fn add(&mut self, in_worktree: bool, mut e: Entry) {
        if let Loose::File(content) = &mut e.what {
            content.truncate(LIMIT);
        }
        let entries = match &mut self.s.common {
            Some(common) if !in_worktree => common,
            _ => &mut self.s.worktree,
        };
        entries.push(e);
        if entries.len() > self.style.blocks || !stand_together(entries) {
            entries.pop();
        }
    }

    fn packed_record(&mut self) {
        let name = match self.any_held() {
            Some(name) if self.rng.percent(35) => name,
            Some(name) if self.rng.percent(10) => [&name[..], b"/", names::part(self.rng)].concat(),
            _ => {
                let name = names::any(self.rng);
                names::inside(self.rng, &self.expansion, name)
            }
        };
        self.record(name);
    }

    /// Add a record if its name is complete.
    fn record(&mut self, name: Bytes) {
        let peeled = self.rng.percent(35).then(|| id(self.rng));
        let id = id(self.rng);
        if let Some(packed) = &mut self.s.packed
            && packed.len() < 2 * self.style.blocks
            && name.len() <= LIMIT
            && gix_validate::reference::complete(&name)
        {
            packed.push(Packed::Record { name, id, peeled });
        }
    }

    fn sort_packed(&mut self) {
        if let Some(packed) = &mut self.s.packed {
            packed.sort_by(|a, b| a.name().cmp(&b.name()));
            packed.dedup_by(|a, b| a.name() == b.name());
        }
    }

    /// Walk errors, packed errors, and packed names that do not rise.
    fn make_unfit(&mut self) {
        for _ in 0..self.rng.below(3) {
            let name = match self.rng.below(8) {
                0 => b"refs".to_vec(),
                _ => [locked_dir(self.rng), names::part(self.rng)].concat(),
            };
            // The files of a nested worktree stand in common too, where no walk below refs/ meets them.
            let in_worktree = self.s.nested.is_none() && self.rng.percent(50);
            self.add(in_worktree, Entry { name, what: Loose::Locked });
        }
        let Some(packed) = &mut self.s.packed else { return };
        for _ in 0..self.rng.below(3) {
            let at = self.rng.below(packed.len() + 1);
            let junk = self.rng.pick(&["junk", "1111 refs/heads/a", "", "z", "refs/heads/a"]);
            packed.insert(at, Packed::Junk(junk.into()));
        }
        if packed.len() > 1 && self.rng.percent(50) {
            let (i, j) = (self.rng.below(packed.len()), self.rng.below(packed.len()));
            if self.rng.percent(50) {
                packed.swap(i, j);
            } else {
                packed[i] = packed[j].clone();
            }
        }
    }

    /// A nested worktree has its place in common to itself.
    fn make_standing(&mut self) {
        if self.s.nested.is_none() {
            return;
        }
        let ours = |name: &[u8]| name == b"worktrees" || name == b"worktrees/w" || name.starts_with(b"worktrees/w/");
        self.s.common.iter_mut().for_each(|c| c.retain(|e| !ours(&e.name)));
        // Mirrored names must fit into a block.
        self.s.worktree.retain(|e| e.name.len() + b"worktrees/w/".len() <= LIMIT);
        self.s.empty.retain(|(_, name)| !ours(name));
    }

    fn case(&mut self, namespace: Option<Bytes>) -> Case {
        let mut groups = Vec::new();
        let fit = self.s.fit();
        if namespace.is_some() {
            let mut questions = Vec::new();
            if fit {
                questions.push(Question::List);
                self.searches(&mut questions, self.style.names);
            }
            groups.push(Group { namespace: namespace.clone(), questions });
        }
        let mut questions = vec![Question::Fit, Question::List];
        let few = if !fit || namespace.is_some() { self.style.names / 4 } else { self.style.names };
        self.searches(&mut questions, few);
        self.on_names(&mut questions);
        groups.push(Group { namespace: None, questions });
        Case { snapshot: self.s.clone(), groups }
    }

    fn searches(&mut self, questions: &mut Vec<Question>, count: usize) {
        for _ in 0..count {
            let name = match (self.rng.below(10), self.any_held()) {
                (0..=2, _) if !self.asked.is_empty() => self.asked[self.rng.below(self.asked.len())].clone(),
                (0..=8, Some(held)) => names::asked(self.rng, &held, &self.expansion),
                _ => names::any(self.rng),
            };
            questions.push(Question::Find(name.clone()));
            questions.push(Question::Follow(name));
        }
    }

    /// Questions about names and contents alone.
    fn on_names(&mut self, questions: &mut Vec<Question>) {
        let rng = &mut *self.rng;
        for _ in 0..2 {
            let name = if rng.percent(40) { names::any(rng) } else { names::bytes(rng) };
            questions.push(Question::Category(name.clone()));
            questions.push(Question::WellFormed(name.clone()));
            questions.push(Question::Complete(name));
            questions.push(Question::Pseudo(names::bytes(rng)));
            let other = names::bytes(rng);
            questions.push(Question::Order(names::near(rng, &other), other));
            questions.push(full_name(rng));
            questions.push(Question::Expand(if rng.percent(50) { names::namespace(rng) } else { names::bytes(rng) }));
            questions.push(strip(rng));
            let content = if rng.percent(60) { odd_content(rng) } else { good_content(rng) };
            questions.push(Question::Decode(content[..content.len().min(LIMIT)].to_vec()));
        }
    }
}

fn locked_dir(rng: &mut Rng) -> &'static [u8] {
    rng.pick(&["refs/", "refs/heads/", "refs/bisect/", "refs/tags/", "refs/heads/a/"]).as_bytes()
}

fn full_name(rng: &mut Rng) -> Question {
    let category = rng.pick(&oracle::CATEGORIES);
    let linked = category.starts_with("Linked");
    Question::FullName {
        category,
        worktree: (linked || rng.percent(20)).then(|| if rng.percent(80) { b"w".to_vec() } else { names::bytes(rng) }),
        short: if rng.percent(50) { names::any(rng) } else { names::bytes(rng) },
    }
}

fn strip(rng: &mut Rng) -> Question {
    let namespace = names::namespace(rng);
    let expansion = oracle::expansion(&namespace).unwrap_or_default();
    let name = names::bytes(rng);
    Question::Strip { name: names::inside(rng, &expansion, name), namespace }
}

/// Where search reads the loose file of a name: in the worktree or not, and under which path. A guess that only guides
/// the generator.
fn home(name: &[u8]) -> (bool, &[u8]) {
    let private =
        |n: &[u8]| [&b"refs/bisect/"[..], b"refs/worktree/", b"refs/rewritten/"].iter().any(|p| n.starts_with(p));
    if let Some(rest) = name.strip_prefix(b"main-worktree/") {
        return (false, rest);
    }
    if let Some(rest) = name.strip_prefix(b"worktrees/w/").or(name.strip_prefix(b"worktrees/v/")) {
        let shared = rest.starts_with(b"refs/") && !private(rest);
        return (false, if shared { rest } else { name });
    }
    (private(name) || !name.contains(&b'/'), name)
}

/// Under which name packed is asked. A guess, as `home`.
fn packed_form(name: &[u8]) -> Bytes {
    let mut rest = name;
    for before in [&b"main-worktree/"[..], b"worktrees/w/", b"worktrees/v/"] {
        rest = rest.strip_prefix(before).unwrap_or(rest);
    }
    rest.to_vec()
}
