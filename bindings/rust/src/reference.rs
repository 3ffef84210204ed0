//! References and what they are made of.
use crate::ffi::{self, Answer, ID_DIGITS, LONGEST_NAME};
use std::fmt;

/// A reference: its name and where it leads.
#[derive(Clone, Debug, PartialEq, Eq, PartialOrd, Ord, Hash)]
pub struct Reference {
    /// Its name, without the namespace of the call.
    pub name: Name,
    /// The id of an object, or the name of another reference.
    pub target: Target,
    /// The object behind the tag objects that the target begins, where packed-refs tells it.
    pub peeled: Option<ObjectId>,
}

/// Where a reference leads.
#[derive(Clone, Debug, PartialEq, Eq, PartialOrd, Ord, Hash)]
pub enum Target {
    /// To an object.
    Object(ObjectId),
    /// To another reference, whose name is complete.
    Symbolic(Name),
}

/// A name of at most 250 bytes. It is well formed and ordered by its bytes, which need not be UTF-8.
///
/// It may be incomplete: packed-refs may hold such names, and a namespace taken off may leave one.
#[derive(Clone, PartialEq, Eq, PartialOrd, Ord, Hash)]
pub struct Name(Vec<u8>);

/// An object's id: 40 hexadecimal digits in lower case.
#[derive(Clone, Copy, PartialEq, Eq, PartialOrd, Ord, Hash)]
pub struct ObjectId([u8; ID_DIGITS]);

impl Reference {
    /// The reference that an answer holds.
    pub(crate) fn of(answer: &Answer) -> Self {
        let target = match answer.kind {
            ffi::OBJECT => Target::Object(ObjectId(answer.id)),
            ffi::SYMBOLIC => Target::Symbolic(Name::of(&answer.target, answer.target_length)),
            _ => ffi::foreign("gives no reference where one is due"),
        };
        let peeled = (answer.has_peeled != 0).then_some(ObjectId(answer.peeled));
        Reference { name: Name::of(&answer.name, answer.name_length), target, peeled }
    }
}

impl Target {
    /// The id of an object target.
    pub fn id(&self) -> Option<&ObjectId> {
        match self {
            Target::Object(id) => Some(id),
            Target::Symbolic(_) => None,
        }
    }

    /// The name that a symbolic target is.
    pub fn name(&self) -> Option<&Name> {
        match self {
            Target::Object(_) => None,
            Target::Symbolic(name) => Some(name),
        }
    }
}

/// The id's digits, or `-> ` and the name.
impl fmt::Display for Target {
    fn fmt(&self, f: &mut fmt::Formatter<'_>) -> fmt::Result {
        match self {
            Target::Object(id) => id.fmt(f),
            Target::Symbolic(name) => write!(f, "-> {name}"),
        }
    }
}

impl Name {
    fn of(bytes: &[u8; LONGEST_NAME], length: u64) -> Self {
        match usize::try_from(length).ok().and_then(|length| bytes.get(..length)) {
            Some(name) => Name(name.to_vec()),
            None => ffi::foreign("gives a name over 250 bytes"),
        }
    }

    /// The name's bytes.
    pub fn as_bytes(&self) -> &[u8] {
        &self.0
    }
}

impl AsRef<[u8]> for Name {
    fn as_ref(&self) -> &[u8] {
        &self.0
    }
}

impl PartialEq<str> for Name {
    fn eq(&self, other: &str) -> bool {
        self.0 == other.as_bytes()
    }
}

impl PartialEq<&str> for Name {
    fn eq(&self, other: &&str) -> bool {
        self == *other
    }
}

/// What is not UTF-8 is shown as the replacement character.
impl fmt::Display for Name {
    fn fmt(&self, f: &mut fmt::Formatter<'_>) -> fmt::Result {
        String::from_utf8_lossy(&self.0).fmt(f)
    }
}

/// The bytes between quotes, those outside ASCII escaped.
impl fmt::Debug for Name {
    fn fmt(&self, f: &mut fmt::Formatter<'_>) -> fmt::Result {
        write!(f, "\"{}\"", self.0.escape_ascii())
    }
}

impl ObjectId {
    /// The digits as ASCII.
    pub const fn digits(&self) -> &[u8; ID_DIGITS] {
        &self.0
    }

    /// The 20 bytes that the digits stand for.
    pub fn to_bytes(self) -> [u8; ID_DIGITS / 2] {
        let value = |digit: u8| if digit < b'a' { digit - b'0' } else { digit - b'a' + 10 };
        std::array::from_fn(|i| value(self.0[2 * i]) << 4 | value(self.0[2 * i + 1]))
    }
}

impl PartialEq<str> for ObjectId {
    fn eq(&self, other: &str) -> bool {
        self.0 == other.as_bytes()
    }
}

impl PartialEq<&str> for ObjectId {
    fn eq(&self, other: &&str) -> bool {
        self == *other
    }
}

impl fmt::Display for ObjectId {
    fn fmt(&self, f: &mut fmt::Formatter<'_>) -> fmt::Result {
        self.0.escape_ascii().fmt(f)
    }
}

impl fmt::Debug for ObjectId {
    fn fmt(&self, f: &mut fmt::Formatter<'_>) -> fmt::Result {
        write!(f, "ObjectId({self})")
    }
}
