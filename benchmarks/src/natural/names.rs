//! Names.
fn holds(s: &[u8], p: &[u8]) -> bool {
    s.windows(p.len()).any(|w| w == p)
}

pub fn well_formed(s: &[u8]) -> bool {
    !(s.is_empty()
        || s == b"@"
        || s.ends_with(b".")
        || s.starts_with(b"/")
        || s.ends_with(b"/")
        || s.iter().any(|&b| b < 32 || b == 127 || b" ~^:?*[\\".contains(&b))
        || s.split(|&b| b == b'/').any(|c| c.is_empty() || c.starts_with(b".") || c.ends_with(b".lock"))
        || holds(s, b"..")
        || holds(s, b"@{"))
}

pub fn is_pseudo(s: &[u8]) -> bool {
    s.iter().all(|b| b.is_ascii_uppercase() || *b == b'_')
}

pub fn complete(s: &[u8]) -> bool {
    well_formed(s) && (s.contains(&b'/') || is_pseudo(s))
}

fn check(s: &[u8], right: fn(&[u8]) -> bool) -> Result<(), u32> {
    match s {
        _ if s.len() > 250 => Err(3),
        _ if right(s) => Ok(()),
        _ => Err(4),
    }
}

pub fn partial_name(s: &[u8]) -> Result<(), u32> {
    check(s, well_formed)
}

pub fn full_name(s: &[u8]) -> Result<(), u32> {
    check(s, complete)
}

pub fn namespace(s: &[u8]) -> Result<(), u32> {
    check(s, well_formed)?;
    super::expanded(Some(s)).map(drop)
}

pub fn expansion(namespace: &[u8]) -> Vec<u8> {
    let parts = namespace.split(|&b| b == b'/');
    parts.flat_map(|part| [b"refs/namespaces/", part, b"/"].concat()).collect()
}

pub fn strip<'a>(s: &'a [u8], e: &[u8]) -> &'a [u8] {
    s.strip_prefix(e).unwrap_or(s)
}

/// What routing asks of a name: where it is read, under which path, and under which name packed.
pub struct Class<'a> {
    pub own: bool,
    pub path: &'a [u8],
    pub packed: Option<&'a [u8]>,
    pub private: bool,
}

pub fn class(s: &[u8]) -> Class<'_> {
    let class = |own, path, packed, private| Class { own, path, packed, private };
    let begins = |p: &str| s.starts_with(p.as_bytes());
    if ["refs/tags/", "refs/heads/", "refs/remotes/", "refs/notes/"].into_iter().any(begins) {
        class(false, s, Some(s), false)
    } else if begins("refs/bisect/") || begins("refs/rewritten/") {
        class(true, s, Some(s), true)
    } else if begins("refs/worktree/") || is_pseudo(s) {
        class(true, s, None, true)
    } else if let Some(rest) = s.strip_prefix(b"main-worktree/") {
        match rest {
            _ if rest.starts_with(b"refs/") => class(false, rest, Some(rest), false),
            _ if is_pseudo(rest) => class(false, rest, None, true),
            _ => class(false, s, Some(s), false),
        }
    } else {
        let below = s.strip_prefix(b"worktrees/").and_then(|r| Some(&r[r.iter().position(|&b| b == b'/')? + 1..]));
        match below {
            Some(rest) if rest.starts_with(b"refs/") => {
                class(false, if self::class(rest).private { s } else { rest }, Some(rest), false)
            }
            Some(rest) if is_pseudo(rest) => class(false, s, None, true),
            _ => class(false, s, Some(s), false),
        }
    }
}

/// The names to try for a partial one, and whether each is sought packed.
pub fn candidates(x: &[u8]) -> Vec<(Vec<u8>, bool)> {
    let full = |x: &[u8], between: &str, pseudo: bool| {
        let looks_full = ["refs/", "main-worktree/", "worktrees/"].iter().any(|p| x.starts_with(p.as_bytes())) || pseudo && is_pseudo(x);
        [if looks_full { b"" } else { &b"refs/"[..] }, between.as_bytes(), x].concat()
    };
    let mut all = Vec::new();
    if is_pseudo(x) {
        all.push((full(x, "", true), true));
    }
    all.extend(["", "tags/", "heads/", "remotes/"].map(|d| (full(x, d, !is_pseudo(x)), true)));
    if x != b"HEAD" {
        all.push((full(&[x, b"/HEAD"].concat(), "remotes/", true), false));
    }
    all
}
