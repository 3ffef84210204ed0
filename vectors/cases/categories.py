"""Document 01, fullname.rs and namespace.rs: categories, `to_full_name`, expansion and stripping."""

# (what it stands for, name, answer)
CATEGORIES = [
    ("empty: PseudoRef, short name empty", "", "PseudoRef ~ ''"),
    ("`main-worktree/`: MainPseudoRef, short empty", "main-worktree/", "MainPseudoRef ~ ''"),
    ("`worktrees/w`: no category", "worktrees/w", "none"),
    ("`worktrees/w/refs/heads/a`: LinkedRef of w", "worktrees/w/refs/heads/a", "LinkedRef 'w' 'refs/heads/a'"),
    ("`refs/notes/a`: Note, short `notes/a`", "refs/notes/a", "Note ~ 'notes/a'"),
    ("Bisect keeps its word", "refs/bisect/a", "Bisect ~ 'bisect/a'"),
    ("WorktreePrivate keeps its word", "refs/worktree/a", "WorktreePrivate ~ 'worktree/a'"),
    ("Rewritten keeps its word", "refs/rewritten/a", "Rewritten ~ 'rewritten/a'"),
    ("Tag", "refs/tags/a/b", "Tag ~ 'a/b'"),
    ("LocalBranch", "refs/heads/a", "LocalBranch ~ 'a'"),
    ("RemoteBranch", "refs/remotes/o/a", "RemoteBranch ~ 'o/a'"),
    ("PseudoRef", "HEAD", "PseudoRef ~ 'HEAD'"),
    ("MainPseudoRef", "main-worktree/HEAD", "MainPseudoRef ~ 'HEAD'"),
    ("MainRef", "main-worktree/refs/heads/a", "MainRef ~ 'refs/heads/a'"),
    ("MainRef of a private name", "main-worktree/refs/bisect/a", "MainRef ~ 'refs/bisect/a'"),
    ("LinkedPseudoRef", "worktrees/w/HEAD", "LinkedPseudoRef 'w' 'HEAD'"),
    ("LinkedRef of a private name", "worktrees/w/refs/bisect/a", "LinkedRef 'w' 'refs/bisect/a'"),
    ("none: a name directly below refs/", "refs/a", "none"),
    ("none: refs/stash", "refs/stash", "none"),
    ("none: no prefix at all", "a/b", "none"),
    ("none: one component with a small letter", "Head", "none"),
    ("none: `main-worktree` without a slash", "main-worktree", "none"),
    ("none: main-worktree/ and neither refs/ nor pseudo", "main-worktree/a", "none"),
    ("none: `main-worktree/refs` is not below refs/", "main-worktree/refs", "none"),
    ("none: `worktrees` without a slash", "worktrees", "none"),
    ("none: worktrees/ with nothing behind", "worktrees/", "none"),
    ("none: worktrees/w/ and neither refs/ nor pseudo", "worktrees/w/a", "none"),
    ("none: the worktree's name ends at the first slash", "worktrees/w/v/HEAD", "none"),
    ("LinkedPseudoRef with an empty short name", "worktrees/w/", "LinkedPseudoRef 'w' ''"),
    ("LinkedPseudoRef of an empty worktree name", "worktrees//HEAD", "LinkedPseudoRef '' 'HEAD'"),
    ("both empty", "worktrees//", "LinkedPseudoRef '' ''"),
    ("LinkedRef of a worktree called refs", "worktrees/refs/refs/a", "LinkedRef 'refs' 'refs/a'"),
    ("the prefix alone: short empty", "refs/tags/", "Tag ~ ''"),
    ("the same: heads", "refs/heads/", "LocalBranch ~ ''"),
    ("the same: remotes", "refs/remotes/", "RemoteBranch ~ ''"),
    ("the same, with its word", "refs/bisect/", "Bisect ~ 'bisect/'"),
    ("without the last slash there is no category", "refs/tags", "none"),
    ("the same", "refs/bisect", "none"),
    ("`refs/worktree/` is not `refs/worktrees/`", "refs/worktrees/a", "none"),
    ("MainRef with nothing behind refs/", "main-worktree/refs/", "MainRef ~ 'refs/'"),
    ("LinkedRef with nothing behind refs/", "worktrees/w/refs/", "LinkedRef 'w' 'refs/'"),
    ("a main-worktree name twice: only the first counts", "main-worktree/main-worktree/HEAD", "none"),
    ("a full name as short name", "refs/heads/refs/heads/a", "LocalBranch ~ 'refs/heads/a'"),
    ("malformed names have categories too, and no 4", "refs/heads/.a..b", "LocalBranch ~ '.a..b'"),
    ("the same", "worktrees/ w/HEAD", "LinkedPseudoRef ' w' 'HEAD'"),
    ("the same: one slash", "/", "none"),
    ("a name of a namespace has none", "refs/namespaces/n/refs/bisect/a", "none"),
    ("underscores only", "__", "PseudoRef ~ '__'"),
]

# (what it stands for, category, worktree name, short name, answer)
FULL = [
    ("Tag", "Tag", "~", "a", "name 'refs/tags/a'"),
    ("LocalBranch", "LocalBranch", "~", "a", "name 'refs/heads/a'"),
    ("RemoteBranch", "RemoteBranch", "~", "o/a", "name 'refs/remotes/o/a'"),
    ("Note: the word is not doubled", "Note", "~", "notes/a", "name 'refs/notes/a'"),
    ("Note: without the word", "Note", "~", "a", "name 'refs/notes/a'"),
    ("Bisect", "Bisect", "~", "bisect/a", "name 'refs/bisect/a'"),
    ("Bisect: without the word", "Bisect", "~", "a", "name 'refs/bisect/a'"),
    ("Rewritten", "Rewritten", "~", "rewritten/a", "name 'refs/rewritten/a'"),
    ("Rewritten: without the word", "Rewritten", "~", "a", "name 'refs/rewritten/a'"),
    ("WorktreePrivate", "WorktreePrivate", "~", "worktree/a", "name 'refs/worktree/a'"),
    ("WorktreePrivate: without the word", "WorktreePrivate", "~", "a", "name 'refs/worktree/a'"),
    ("PseudoRef", "PseudoRef", "~", "HEAD", "name 'HEAD'"),
    ("MainPseudoRef", "MainPseudoRef", "~", "HEAD", "name 'main-worktree/HEAD'"),
    ("MainRef", "MainRef", "~", "refs/heads/a", "name 'main-worktree/refs/heads/a'"),
    ("MainRef: without refs/", "MainRef", "~", "heads/a", "name 'main-worktree/refs/heads/a'"),
    ("LinkedPseudoRef", "LinkedPseudoRef", "'w'", "HEAD", "name 'worktrees/w/HEAD'"),
    ("LinkedRef", "LinkedRef", "'w'", "refs/heads/a", "name 'worktrees/w/refs/heads/a'"),
    ("'keeps a short name that already begins with the prefix'", "Tag", "~", "refs/tags/a", "name 'refs/tags/a'"),
    ("the same: heads", "LocalBranch", "~", "refs/heads/a", "name 'refs/heads/a'"),
    ("the same: remotes", "RemoteBranch", "~", "refs/remotes/o/a", "name 'refs/remotes/o/a'"),
    ("the same: notes", "Note", "~", "refs/notes/a", "name 'refs/notes/a'"),
    ("the same, behind the word", "Note", "~", "notes/refs/notes/a", "name 'refs/notes/a'"),
    ("the word is taken off once", "Note", "~", "notes/notes/a", "name 'refs/notes/notes/a'"),
    ("the same: main-worktree", "MainPseudoRef", "~", "main-worktree/HEAD", "name 'main-worktree/HEAD'"),
    ("the same: main-worktree/refs/", "MainRef", "~", "main-worktree/refs/a", "name 'main-worktree/refs/a'"),
    ("the same: the worktree's own prefix", "LinkedRef", "'w'", "worktrees/w/refs/a", "name 'worktrees/w/refs/a'"),
    ("another worktree's prefix is not its own", "LinkedRef", "'w'", "worktrees/v/refs/a",
     "name 'worktrees/w/worktrees/v/refs/a'"),
    ("another prefix is no prefix", "Tag", "~", "refs/heads/a", "name 'refs/tags/refs/heads/a'"),
    ("it is no inverse everywhere: `refs/heads/refs/heads/a` has the short name `refs/heads/a`",
     "LocalBranch", "~", "refs/heads/a", "name 'refs/heads/a'"),
    ("the result need only be complete, whatever its category", "PseudoRef", "~", "a/b", "name 'a/b'"),
    ("the same: not complete", "PseudoRef", "~", "a", "refused 4"),
    ("empty result", "PseudoRef", "~", "", "refused 4"),
    ("empty short name: the result ends in a slash", "Tag", "~", "", "refused 4"),
    ("the same: main-worktree/", "MainPseudoRef", "~", "", "refused 4"),
    ("the same: linked", "LinkedPseudoRef", "'w'", "", "refused 4"),
    ("malformed", "Tag", "~", "a..b", "refused 4"),
    ("malformed: leading slash", "LocalBranch", "~", "/a", "refused 4"),
    ("the prefix itself is kept, and incomplete", "Tag", "~", "refs/tags/", "refused 4"),
    ("`@` is well formed below a prefix", "LocalBranch", "~", "@", "name 'refs/heads/@'"),
    ("the worktree name is checked only through the result", "LinkedPseudoRef", "'a/b'", "HEAD",
     "name 'worktrees/a/b/HEAD'"),
    ("the same: empty", "LinkedPseudoRef", "''", "HEAD", "refused 4"),
    ("the same: malformed", "LinkedRef", "'a..b'", "refs/a", "refused 4"),
    ("the same: @", "LinkedRef", "'@'", "refs/a", "name 'worktrees/@/refs/a'"),
    ("a short name that is no pseudo name is not looked at", "LinkedPseudoRef", "'w'", "a", "name 'worktrees/w/a'"),
    ("other categories pass over a worktree name", "Tag", "'w'", "a", "name 'refs/tags/a'"),
    ("the same: malformed", "PseudoRef", "'a..b'", "HEAD", "name 'HEAD'"),
    ("the same: empty", "MainRef", "''", "refs/a", "name 'main-worktree/refs/a'"),
]

# (what it stands for, namespace, answer)
EXPAND = [
    ("`a/b` expands to `refs/namespaces/a/refs/namespaces/b/`", "a/b",
     "name 'refs/namespaces/a/refs/namespaces/b/'"),
    ("one component", "n", "name 'refs/namespaces/n/'"),
    ("three", "a/b/c", "name 'refs/namespaces/a/refs/namespaces/b/refs/namespaces/c/'"),
    ("a namespace need not be complete, nor is refs/ special", "refs/heads",
     "name 'refs/namespaces/refs/refs/namespaces/heads/'"),
    ("empty: 4", "", "refused 4"),
    ("malformed: 4", "a//b", "refused 4"),
    ("malformed: 4", "a/", "refused 4"),
    ("malformed: 4", "@", "refused 4"),
    ("a component @ is well formed", "a/@", "name 'refs/namespaces/a/refs/namespaces/@/'"),
    ("233 bytes expand to 250", "n" * 233, "name 'refs/namespaces/" + "n" * 233 + "/'"),
    ("234 bytes expand to 251: 5", "n" * 234, "refused 5"),
    ("249 and 250 bytes: 5", "n" * 249, "refused 5"),
    ("the same", "n" * 250, "refused 5"),
    ("251 bytes: 3, although the expansion would be 5 as well", "n" * 251, "refused 3"),
    ("251 malformed bytes: 3 before 4", "." * 251, "refused 3"),
    ("250 malformed bytes: 4 before 5", "." * 250, "refused 4"),
    ("thirteen components: 13 times 18 is 234", "/".join("abcdefghijklm"),
     "name '" + "".join(f"refs/namespaces/{part}/" for part in "abcdefghijklm") + "'"),
    ("fourteen components: 252, and so 5", "/".join("abcdefghijklmn"), "refused 5"),
]

# (what it stands for, front, name, answer)
STRIP = [
    ("removes it where it stands in front", "refs/namespaces/a/", "refs/namespaces/a/refs/heads/m", "refs/heads/m"),
    ("once", "ab/", "ab/ab/c", "ab/c"),
    ("only where it stands in front", "ab/", "c/ab/d", "c/ab/d"),
    ("not where only a part of it does", "refs/namespaces/a/", "refs/namespaces/a", "refs/namespaces/a"),
    ("all of it", "ab/", "ab/", ""),
    ("nothing in front", "", "ab", "ab"),
    ("from nothing", "ab", "", ""),
    ("nothing from nothing", "", "", ""),
    ("malformed names too, and no 4", "..", "..a", "a"),
    ("any bytes", "\\x00\\xff", "\\x00\\xff\\x00\\xff", "\\x00\\xff"),
    ("at any length", "a" * 251, "a" * 300, "a" * 49),
]


def write(t):
    for about, name, answer in CATEGORIES:
        t.note("fullname.rs, category: " + about)
        t.ask(f"category '{name}'", answer)
    t.note("fullname.rs, category at any length, no 3")
    for length in (249, 250, 251, 400):
        t.ask(f"category 'refs/heads/{'a' * (length - 11)}'", f"LocalBranch ~ '{'a' * (length - 11)}'")
        t.ask(f"category '{'A' * length}'", f"PseudoRef ~ '{'A' * length}'")
        t.ask(f"category 'worktrees/{'w' * (length - 15)}/HEAD'", f"LinkedPseudoRef '{'w' * (length - 15)}' 'HEAD'")
    for about, kind, worktree, short, answer in FULL:
        t.note("fullname.rs, `to_full_name`: " + about)
        t.ask(f"fullname {kind} {worktree} '{short}'", answer)
    write_long_full_names(t)
    for about, namespace, answer in EXPAND:
        t.note("namespace.rs, expansion: " + about)
        t.ask(f"expand '{namespace}'", answer)
    for about, front, name, answer in STRIP:
        t.note("namespace.rs, stripping: " + about)
        t.ask(f"strip '{front}' '{name}'", f"name '{answer}'")


def write_long_full_names(t):
    t.note("`to_full_name`: results of 249, 250 and 251 bytes; over 250 is 3")
    for length, refused in ((249, None), (250, None), (251, "refused 3")):
        short = "a" * (length - 10)
        t.ask(f"fullname Tag ~ '{short}'", refused or f"name 'refs/tags/{short}'")
        short = "A" * length
        t.ask(f"fullname PseudoRef ~ '{short}'", refused or f"name '{short}'")
        worktree = "w" * (length - 15)
        t.ask(f"fullname LinkedPseudoRef '{worktree}' 'HEAD'", refused or f"name 'worktrees/{worktree}/HEAD'")
    t.note("'A short name [..] over 250 bytes is refused 3', even where the result would be shorter")
    t.ask(f"fullname Note ~ 'notes/refs/notes/{'a' * 234}'", "refused 3")
    t.ask(f"fullname Note ~ 'notes/refs/notes/{'a' * 233}'", f"name 'refs/notes/{'a' * 233}'")
    t.ask(f"fullname MainRef ~ 'refs/main-worktree/refs/{'a' * 227}'", "refused 3")
    t.note("'then an incomplete result 4': too long and malformed is 3")
    t.ask(f"fullname Tag ~ '{'a' * 240}.'", "refused 3")
    t.ask(f"fullname Tag ~ '{'a' * 239}.'", "refused 4")
    t.note("a worktree name over 250 bytes shows in the result: 3; other categories pass over it")
    t.ask(f"fullname LinkedRef '{'w' * 251}' 'refs/a'", "refused 3")
    t.ask(f"fullname LinkedRef '{'.' * 251}' 'refs/a'", "refused 3")
    t.ask(f"fullname Tag '{'w' * 251}' 'a'", "name 'refs/tags/a'")
