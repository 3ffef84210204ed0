//! A snapshot as it is generated, before either translation, and the questions about it.

pub type Bytes = Vec<u8>;

/// The longest name of a block, and the longest content.
pub const LIMIT: usize = 250;

#[derive(Clone, Debug, PartialEq)]
pub enum Loose {
    File(Bytes),
    /// A file without permission: kind 2.
    Unreadable,
    /// A directory without permission: kind 3, where its entries would stand.
    Locked,
}

#[derive(Clone, Debug, PartialEq)]
pub struct Entry {
    pub name: Bytes,
    pub what: Loose,
}

#[derive(Clone, Debug, PartialEq)]
pub enum Packed {
    /// Ids are digits as they stand in the file.
    Record { name: Bytes, id: Bytes, peeled: Option<Bytes> },
    /// A line that is no record: kind 5.
    Junk(Bytes),
}

impl Packed {
    /// The name of a record.
    pub fn name(&self) -> Option<&Bytes> {
        match self {
            Packed::Record { name, .. } => Some(name),
            Packed::Junk(_) => None,
        }
    }
}

#[derive(Clone, Debug, Default, PartialEq)]
pub struct Snapshot {
    pub worktree: Vec<Entry>,
    pub common: Option<Vec<Entry>>,
    pub packed: Option<Vec<Packed>>,
    /// The worktree's directory is `worktrees/<this>` of the common one, which then holds its files too.
    pub nested: Option<Bytes>,
    /// Directories without files, which no block shows: of the common one if there is one and the flag is set.
    pub empty: Vec<(bool, Bytes)>,
}

impl Snapshot {
    /// Neither walk errors nor packed errors, and packed names rise.
    pub fn fit(&self) -> bool {
        let loose = self.worktree.iter().chain(self.common.iter().flatten());
        let records: Option<Vec<&Bytes>> = self.packed.iter().flatten().map(Packed::name).collect();
        loose.into_iter().all(|e| e.what != Loose::Locked)
            && records.is_some_and(|names| names.windows(2).all(|w| w[0] < w[1]))
    }
}

#[derive(Clone, Debug, PartialEq)]
pub enum Question {
    Find(Bytes),
    Follow(Bytes),
    List,
    Category(Bytes),
    FullName {
        category: &'static str,
        worktree: Option<Bytes>,
        short: Bytes,
    },
    Expand(Bytes),
    /// The namespace is not expanded here.
    Strip {
        namespace: Bytes,
        name: Bytes,
    },
    Decode(Bytes),
    Pseudo(Bytes),
    Order(Bytes, Bytes),
    WellFormed(Bytes),
    Complete(Bytes),
    /// Whether the snapshot is fit for search.
    Fit,
}

impl Question {
    pub const KINDS: [&'static str; 13] = [
        "find",
        "follow",
        "list",
        "category",
        "fullname",
        "expand",
        "strip",
        "decode",
        "pseudo",
        "order",
        "wellformed",
        "complete",
        "fit",
    ];

    /// The place among `KINDS`.
    pub fn kind(&self) -> usize {
        match self {
            Question::Find(_) => 0,
            Question::Follow(_) => 1,
            Question::List => 2,
            Question::Category(_) => 3,
            Question::FullName { .. } => 4,
            Question::Expand(_) => 5,
            Question::Strip { .. } => 6,
            Question::Decode(_) => 7,
            Question::Pseudo(_) => 8,
            Question::Order(..) => 9,
            Question::WellFormed(_) => 10,
            Question::Complete(_) => 11,
            Question::Fit => 12,
        }
    }
}

/// Questions asked under one namespace, not expanded, or under none.
#[derive(Clone, Debug)]
pub struct Group {
    pub namespace: Option<Bytes>,
    pub questions: Vec<Question>,
}

#[derive(Clone, Debug)]
pub struct Case {
    pub snapshot: Snapshot,
    pub groups: Vec<Group>,
}

/// `outer` is a directory of `inner`.
pub fn is_directory_of(outer: &[u8], inner: &[u8]) -> bool {
    inner.len() > outer.len() && inner.starts_with(outer) && inner[outer.len()] == b'/'
}

/// The name can stand on disc as a relative path and in a block.
pub fn can_stand(name: &[u8]) -> bool {
    name.len() <= LIMIT
        && !name.contains(&0)
        && name.split(|b| *b == b'/').all(|part| !part.is_empty() && part != b"." && part != b"..")
}

/// The entries can stand beside each other in one directory.
pub fn stand_together(entries: &[Entry]) -> bool {
    entries.iter().enumerate().all(|(i, e)| {
        can_stand(&e.name)
            && entries[..i]
                .iter()
                .all(|o| o.name != e.name && !is_directory_of(&o.name, &e.name) && !is_directory_of(&e.name, &o.name))
    })
}
