"""Document 01, 'Search': the candidates for a name, the first of which that is found or refused ends the search."""

from table import block, file, oid, record, ref, rising, unreadable


def write(t):
    write_candidates(t)
    write_pseudo(t)
    write_full(t)
    write_first_ends(t)
    write_long_names(t)


def write_candidates(t):
    held = [("refs/a", "1"), ("refs/tags/a", "2"), ("refs/heads/a", "3"), ("refs/remotes/a", "4"),
            ("refs/tags/b", "5"), ("refs/heads/b", "6"), ("refs/remotes/b", "7"),
            ("refs/heads/c", "8"), ("refs/remotes/c", "9"), ("refs/remotes/d", "a"), ("refs/remotes/e/HEAD", "b")]
    t.note("Search: `\"\"`, `tags`, `heads`, `remotes` in between, `refs/` in front; last `x/HEAD` with `remotes`")
    t.snapshot(worktree=rising(*[oid(name, digit) for name, digit in held]))
    t.ask("find 'a'", "found 'refs/a' object #1 ~")
    t.ask("find 'b'", "found 'refs/tags/b' object #5 ~")
    t.ask("find 'c'", "found 'refs/heads/c' object #8 ~")
    t.ask("find 'd'", "found 'refs/remotes/d' object #a ~")
    t.ask("find 'e'", "found 'refs/remotes/e/HEAD' object #b ~")
    t.ask("find 'f'", "absent")
    t.ask("find 'heads/a'", "found 'refs/heads/a' object #3 ~")
    t.ask("find 'tags/c'", "absent")
    t.ask("find 'remotes/e'", "absent")
    t.ask("find 'e/HEAD'", "found 'refs/remotes/e/HEAD' object #b ~")
    t.ask("find 'refs/heads/c'", "found 'refs/heads/c' object #8 ~")
    t.ask("find 'refs/tags/c'", "absent")
    t.note("the same from packed; 'never sought packed' is only the last candidate, `x/HEAD`: misreading four")
    t.snapshot(packed=rising(*[record(name, digit) for name, digit in held]))
    t.ask("find 'a'", "found 'refs/a' object #1 ~")
    t.ask("find 'b'", "found 'refs/tags/b' object #5 ~")
    t.ask("find 'c'", "found 'refs/heads/c' object #8 ~")
    t.ask("find 'd'", "found 'refs/remotes/d' object #a ~")
    t.ask("find 'e'", "absent")
    t.ask("find 'e/HEAD'", "found 'refs/remotes/e/HEAD' object #b ~")
    t.ask("find 'refs/remotes/e/HEAD'", "found 'refs/remotes/e/HEAD' object #b ~")
    t.note("a loose file in a later candidate does not come before a packed record in an earlier one")
    t.snapshot(worktree=[oid("refs/heads/a", "1"), oid("refs/remotes/e/HEAD", "2")],
               packed=[record("refs/tags/a", "3")])
    t.ask("find 'a'", "found 'refs/tags/a' object #3 ~")
    t.ask("find 'e'", "found 'refs/remotes/e/HEAD' object #2 ~")
    t.note("a loose file over a packed record of the same name; the answer from loose has no peeled id")
    t.snapshot(worktree=[oid("refs/tags/v", "1")],
               packed=[record("refs/tags/v", "2", "3"), record("refs/tags/w", "4", "5")])
    t.ask("find 'v'", "found 'refs/tags/v' object #1 ~")
    t.ask("find 'w'", "found 'refs/tags/w' object #4 #5")
    t.note("ids are answered in lower case, loose and packed")
    t.snapshot(worktree=[file("refs/heads/a", "ABCDEF" * 6 + "ABCD")],
               packed=[block(4, b"refs/heads/b", b"A" * 40 + b"F" * 40)])
    t.ask("find 'a'", "found 'refs/heads/a' object " + "abcdef" * 6 + "abcd ~")
    t.ask("find 'b'", "found 'refs/heads/b' object #a #f")


def write_pseudo(t):
    held = [("A", "1"), ("refs/A", "2"), ("refs/B", "3"), ("refs/tags/B", "4"), ("refs/tags/C", "5"),
            ("refs/heads/C", "6"),
            ("refs/heads/D", "7"), ("refs/remotes/D", "8"), ("refs/remotes/E_", "9"), ("refs/remotes/F/HEAD", "a"),
            ("refs/remotes/HEAD/HEAD", "b")]
    t.note("'If x is pseudo, the first pass holds only x itself', then a second pass: six candidates, HEAD five")
    t.snapshot(worktree=rising(*[oid(name, digit) for name, digit in held]))
    t.ask("find 'A'", "found 'A' object #1 ~")
    t.ask("find 'B'", "found 'refs/B' object #3 ~")
    t.ask("find 'C'", "found 'refs/tags/C' object #5 ~")
    t.ask("find 'D'", "found 'refs/heads/D' object #7 ~")
    t.ask("find 'E_'", "found 'refs/remotes/E_' object #9 ~")
    t.ask("find 'F'", "found 'refs/remotes/F/HEAD' object #a ~")
    t.note("'Last, unless x is `HEAD`'")
    t.ask("find 'HEAD'", "absent")
    t.ask("find 'HEAD/HEAD'", "found 'refs/remotes/HEAD/HEAD' object #b ~")
    t.note("the same from packed: `A` itself is never sought there")
    t.snapshot(packed=rising(*[record(name, digit) for name, digit in held]))
    t.ask("find 'A'", "found 'refs/A' object #2 ~")
    t.ask("find 'B'", "found 'refs/B' object #3 ~")
    t.ask("find 'C'", "found 'refs/tags/C' object #5 ~")
    t.ask("find 'D'", "found 'refs/heads/D' object #7 ~")
    t.ask("find 'E_'", "found 'refs/remotes/E_' object #9 ~")
    t.ask("find 'F'", "absent")
    t.ask("find 'HEAD'", "absent")
    t.note("`refs/remotes/HEAD`, no component between, is sought packed for HEAD; the five candidates of HEAD")
    t.snapshot(packed=[record("refs/remotes/HEAD", "1")])
    t.ask("find 'HEAD'", "found 'refs/remotes/HEAD' object #1 ~")
    t.snapshot(packed=[record("refs/heads/HEAD", "1"), record("refs/remotes/HEAD", "2")])
    t.ask("find 'HEAD'", "found 'refs/heads/HEAD' object #1 ~")
    t.snapshot(packed=[record("refs/heads/HEAD", "1"), record("refs/tags/HEAD", "2")])
    t.ask("find 'HEAD'", "found 'refs/tags/HEAD' object #2 ~")
    t.snapshot(packed=[record("refs/HEAD", "3"), record("refs/tags/HEAD", "2")])
    t.ask("find 'HEAD'", "found 'refs/HEAD' object #3 ~")
    t.note("a name with a small letter is not pseudo: x itself is no candidate")
    t.snapshot(worktree=[oid("Ab", "1"), oid("a", "2")], packed=[record("a", "3"), record("refs/heads/Ab", "4")])
    t.ask("find 'Ab'", "found 'refs/heads/Ab' object #4 ~")
    t.ask("find 'a'", "absent")


def write_full(t):
    t.note("a name that looks full has `tags/`, `heads/` and `remotes/` in front too, and no `refs/`")
    t.snapshot(worktree=[oid("heads/refs/a", "1"), oid("remotes/refs/a", "2"), oid("tags/refs/a", "3")])
    t.ask("find 'refs/a'", "found 'tags/refs/a' object #3 ~")
    t.snapshot(worktree=[oid("heads/refs/a", "1"), oid("remotes/refs/a", "2")])
    t.ask("find 'refs/a'", "found 'heads/refs/a' object #1 ~")
    t.snapshot(worktree=[oid("remotes/refs/a", "2"), oid("remotes/refs/b/HEAD", "4")])
    t.ask("find 'refs/a'", "found 'remotes/refs/a' object #2 ~")
    t.ask("find 'refs/b'", "found 'remotes/refs/b/HEAD' object #4 ~")
    t.note("the same from packed, the last candidate apart; none of these names finds itself")
    t.snapshot(packed=[record("heads/refs/a", "1"), record("remotes/refs/a", "2"), record("remotes/refs/b/HEAD", "4"),
                       record("tags/refs/c", "5")])
    t.ask("find 'refs/a'", "found 'heads/refs/a' object #1 ~")
    t.ask("find 'refs/b'", "absent")
    t.ask("find 'refs/c'", "found 'tags/refs/c' object #5 ~")
    t.ask("find 'heads/refs/a'", "absent")
    t.note("'`x/HEAD`, itself the partial name that may look full': x = `refs` does not, its `x/HEAD` does")
    t.snapshot(worktree=[oid("refs/remotes/main-worktree/HEAD", "1"), oid("refs/remotes/refs/HEAD", "2"),
                         oid("remotes/main-worktree/HEAD", "3"), oid("remotes/refs/HEAD", "4"),
                         oid("remotes/worktrees/HEAD", "5")])
    t.ask("find 'refs'", "found 'remotes/refs/HEAD' object #4 ~")
    t.ask("find 'main-worktree'", "found 'remotes/main-worktree/HEAD' object #3 ~")
    t.ask("find 'worktrees'", "found 'remotes/worktrees/HEAD' object #5 ~")
    t.ask("find 'refs/HEAD'", "found 'remotes/refs/HEAD' object #4 ~")
    t.note("the same from packed: not for `refs`, but for `refs/HEAD`")
    t.snapshot(packed=[record("remotes/refs/HEAD", "4")])
    t.ask("find 'refs'", "absent")
    t.ask("find 'refs/HEAD'", "found 'remotes/refs/HEAD' object #4 ~")
    t.note("names that begin main-worktree/ or worktrees/ look full")
    t.snapshot(worktree=[oid("heads/worktrees/w", "1"), oid("refs/heads/worktrees/w", "2"),
                         oid("refs/main-worktree/a", "3"), oid("remotes/worktrees/v/HEAD", "4"),
                         oid("tags/main-worktree/a", "5"), oid("worktrees/u", "6")])
    t.ask("find 'worktrees/w'", "found 'heads/worktrees/w' object #1 ~")
    t.ask("find 'main-worktree/a'", "found 'tags/main-worktree/a' object #5 ~")
    t.ask("find 'worktrees/v'", "found 'remotes/worktrees/v/HEAD' object #4 ~")
    t.ask("find 'worktrees/u'", "found 'worktrees/u' object #6 ~")


def write_first_ends(t):
    t.note("'The first one found or refused ends the search.'")
    t.snapshot(worktree=rising(
        file("refs/j", "junk"), oid("refs/tags/j", "1"), unreadable("refs/u"), oid("refs/tags/u", "1"),
        file("refs/tags/i", "ref: main"), oid("refs/heads/i", "1"), ref("refs/heads/r", "refs/heads/.invalid"),
        oid("refs/remotes/r", "1"), file("refs/remotes/o/HEAD", "")), packed=[record("refs/j", "2")])
    t.ask("find 'j'", "refused 10")
    t.ask("find 'u'", "refused 9")
    t.ask("find 'i'", "refused 11")
    t.ask("find 'r'", "refused 12")
    t.ask("find 'o'", "refused 10")
    t.ask("find 'tags/j'", "found 'refs/tags/j' object #1 ~")
    t.note("what stands in a later candidate does not count")
    t.snapshot(worktree=[oid("refs/heads/a", "1"), file("refs/remotes/a", "junk")])
    t.ask("find 'a'", "found 'refs/heads/a' object #1 ~")
    t.note("symbolic answers have the target and no peeled id; the target is not looked for")
    t.snapshot(worktree=[ref("HEAD", "refs/heads/a"), ref("refs/heads/s", "A/b")])
    t.ask("find 'HEAD'", "found 'HEAD' symbolic 'refs/heads/a' ~")
    t.ask("find 's'", "found 'refs/heads/s' symbolic 'A/b' ~")


def write_long_names(t):
    long = "a" * 250
    t.note("names of 249 and 250 bytes are sought, 251 are 3")
    t.snapshot(worktree=rising(oid("A" * 250, "1"), oid("refs/heads/" + long[11:], "2"),
                               oid("refs/heads/" + long[12:], "3"),
                               oid("refs/tags/" + long[10:], "4"), oid("refs/" + long[5:], "5"),
                               oid("refs/remotes/" + "o" * 232 + "/HEAD", "6")))
    t.ask(f"find '{'A' * 250}'", f"found '{'A' * 250}' object #1 ~")
    t.ask(f"find '{'A' * 249}'", "absent")
    t.ask(f"find '{'A' * 251}'", "refused 3")
    t.ask(f"find 'refs/heads/{long[11:]}'", f"found 'refs/heads/{long[11:]}' object #2 ~")
    t.ask(f"find 'refs/heads/{long[12:]}'", f"found 'refs/heads/{long[12:]}' object #3 ~")
    t.ask(f"find 'refs/heads/{long[10:]}'", "refused 3")
    t.note("'A candidate over 250 bytes is absent': partial names of 239, 240, 245, 246, 249 and 250 bytes")
    t.ask(f"find '{'a' * 239}'", f"found 'refs/heads/{'a' * 239}' object #2 ~")
    t.ask(f"find '{'a' * 240}'", f"found 'refs/tags/{'a' * 240}' object #4 ~")
    t.ask(f"find '{'a' * 245}'", f"found 'refs/{'a' * 245}' object #5 ~")
    t.ask(f"find '{'a' * 246}'", "absent")
    t.ask(f"find '{'a' * 249}'", "absent")
    t.ask(f"find '{'a' * 250}'", "absent")
    t.ask(f"find '{'a' * 251}'", "refused 3")
    t.note("`x/HEAD` with `refs/remotes/` in front: 232 bytes fit, 233 do not")
    t.ask(f"find '{'o' * 232}'", f"found 'refs/remotes/{'o' * 232}/HEAD' object #6 ~")
    t.ask(f"find '{'o' * 233}'", "absent")
    t.note("a candidate cut to 250 bytes would be another name: it is absent, not cut")
    t.snapshot(worktree=[oid("refs/heads/" + "b" * 239, "1")])
    t.ask(f"find '{'b' * 240}'", "absent")
    t.snapshot(worktree=[oid("refs/remotes/" + "o" * 232 + "/HEA", "1")])
    t.ask(f"find '{'o' * 233}'", "absent")
    t.note("a name of 250 bytes whose packed name is shorter; one of 251 is 3 all the same")
    t.snapshot(packed=[record("refs/heads/" + "b" * 200, "1")])
    t.ask(f"find 'worktrees/{'w' * 26}/refs/heads/{'b' * 200}'", f"found 'refs/heads/{'b' * 200}' object #1 ~")
    t.ask(f"find 'worktrees/{'w' * 28}/refs/heads/{'b' * 200}'", f"found 'refs/heads/{'b' * 200}' object #1 ~")
    t.ask(f"find 'worktrees/{'w' * 29}/refs/heads/{'b' * 200}'", "refused 3")
