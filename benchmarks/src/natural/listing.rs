//! The listing: an iterator over three iterators, which looks at each block once.
use super::entries::{is_damaged, name_of, says, Reference};
use super::names::{class, partial_name, well_formed};
use super::{expanded, sizes, Snapshot};
use std::iter::Peekable;

type Entry<'a> = Result<&'a [u8], u32>;

/// The blocks of a region that a listing shows.
fn shown<'a>(r: &'a [u8], packed: bool, shows: impl Fn(&[u8]) -> bool) -> impl Iterator<Item = Entry<'a>> {
    r.chunks_exact(512).filter_map(move |b| match b[0] {
        _ if is_damaged(b, packed) => Some(Err(6)),
        3 | 5 => Some(Err(7)),
        _ => shows(name_of(b)).then_some(Ok(b)),
    })
}

struct Listing<W: Iterator, C: Iterator, P: Iterator> {
    worktree: Peekable<W>,
    common: Peekable<C>,
    packed: Peekable<P>,
    e: Vec<u8>,
}

fn error<'a>(it: &mut Peekable<impl Iterator<Item = Entry<'a>>>) -> Option<u32> {
    it.next_if(|e| e.is_err())?.err()
}

fn waiting<'a>(it: &mut Peekable<impl Iterator<Item = Entry<'a>>>) -> Option<&'a [u8]> {
    it.peek().and_then(|e| e.ok())
}

impl<'a, W, C, P> Iterator for Listing<W, C, P>
where
    W: Iterator<Item = Entry<'a>>,
    C: Iterator<Item = Entry<'a>>,
    P: Iterator<Item = Entry<'a>>,
{
    type Item = Result<Reference<'a>, u32>;

    fn next(&mut self) -> Option<Self::Item> {
        let failed = error(&mut self.packed).or_else(|| error(&mut self.common)).or_else(|| error(&mut self.worktree));
        if let Some(k) = failed {
            return Some(Err(k));
        }
        let heads = [waiting(&mut self.worktree), waiting(&mut self.common), waiting(&mut self.packed)];
        let b = heads.into_iter().flatten().min_by(|a, b| name_of(a).cmp(name_of(b)))?;
        let same = |e: &Entry| e.is_ok_and(|x| name_of(x) == name_of(b));
        self.worktree.next_if(same);
        self.common.next_if(same);
        self.packed.next_if(same);
        Some(says(b, name_of(b), &self.e))
    }
}

#[inline(never)]
pub fn list<'a>(s: &Snapshot<'a>, namespace: Option<&[u8]>) -> Result<impl Iterator<Item = Result<Reference<'a>, u32>>, u32> {
    sizes(s)?;
    namespace.map_or(Ok(()), partial_name)?;
    let e = expanded(namespace)?;
    let begin = if e.is_empty() { b"refs/".to_vec() } else { e.clone() };
    let (first, second, third) = (begin.clone(), begin, e.clone());
    Ok(Listing {
        worktree: shown(s.worktree, false, move |n| n.starts_with(&first) && well_formed(n)).peekable(),
        common: shown(s.common.unwrap_or(&[]), false, move |n| n.starts_with(&second) && well_formed(n) && !class(n).private).peekable(),
        packed: shown(s.packed, true, move |n| n.starts_with(&third)).peekable(),
        e,
    })
}
