//! Search and following.
use super::entries::{name_of, says, Reference, Target};
use super::names::{candidates, class};
use super::{checked, Refusal, Snapshot};

struct Search<'a> {
    worktree: Vec<&'a [u8]>,
    common: Option<Vec<&'a [u8]>>,
    packed: Vec<&'a [u8]>,
    e: Vec<u8>,
}

fn block<'a>(region: &[&'a [u8]], name: &[u8]) -> Option<&'a [u8]> {
    region.binary_search_by(|b| name_of(b).cmp(name)).ok().map(|k| region[k])
}

type Found<'a> = Result<Option<Reference<'a>>, u32>;

impl<'a> Search<'a> {
    fn new(s: &Snapshot<'a>, e: Vec<u8>) -> Self {
        let blocks = |r: &'a [u8]| r.chunks_exact(512).collect::<Vec<_>>();
        Search { worktree: blocks(s.worktree), common: s.common.map(blocks), packed: blocks(s.packed), e }
    }

    fn lookup(&self, c: &[u8], seek: bool) -> Option<Result<Reference<'a>, u32>> {
        if c.len() > 250 {
            return None;
        }
        let class = class(c);
        let region = if class.own { &self.worktree } else { self.common.as_ref().unwrap_or(&self.worktree) };
        let path = [&self.e, class.path].concat();
        let mut slashes = path.iter().enumerate().filter(|(_, &b)| b == b'/');
        if slashes.any(|(i, _)| block(region, &path[..i]).is_some()) {
            return None;
        }
        if let Some(b) = block(region, &path) {
            return Some(says(b, c, &self.e));
        }
        let b = block(&self.packed, &[&self.e, class.packed.filter(|_| seek)?].concat())?;
        Some(says(b, name_of(b), &self.e))
    }

    fn find(&self, x: &[u8]) -> Found<'a> {
        candidates(x).iter().find_map(|(c, seek)| self.lookup(c, *seek)).transpose()
    }

    fn follow(&self, x: &[u8]) -> Result<Option<Reference<'a>>, Stop<'a>> {
        let Some(mut r) = self.find(x)? else { return Ok(None) };
        let mut seen: Vec<Vec<u8>> = Vec::new();
        while seen.len() < 5 {
            let Target::Name(t) = r.target else { return Ok(Some(r)) };
            let next = match self.find(t)? {
                None => return Err(Stop::At(13, r)),
                Some(next) if seen.contains(&next.name) => return Err(Stop::At(14, r)),
                Some(next) => next,
            };
            seen.push(next.name.clone());
            r = next;
        }
        Err(Stop::At(15, r))
    }
}

/// Why following ends without an id: a refusal, or 13 to 15 with the last reference reached.
pub enum Stop<'a> {
    Refused(Refusal),
    At(u32, Reference<'a>),
}

impl From<u32> for Stop<'_> {
    fn from(number: u32) -> Self {
        Stop::Refused(number.into())
    }
}

#[inline(never)]
pub fn find<'a>(s: &Snapshot<'a>, name: &[u8], namespace: Option<&[u8]>) -> Result<Option<Reference<'a>>, Refusal> {
    let e = checked(s, name, namespace)?;
    Ok(Search::new(s, e).find(name)?)
}

#[inline(never)]
pub fn follow<'a>(s: &Snapshot<'a>, name: &[u8], namespace: Option<&[u8]>) -> Result<Option<Reference<'a>>, Stop<'a>> {
    let e = checked(s, name, namespace).map_err(Stop::Refused)?;
    Search::new(s, e).follow(name)
}
