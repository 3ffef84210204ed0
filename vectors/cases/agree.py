"""List and search agree: each name of a listing sought whole, where it gives what the listing showed, and, for each premise,
a snapshot that fails it alone, where it does not. A refused entry's name is not in the listing's answer, but in its block."""

from table import file, oid, record, ref, rising, unreadable

N = "refs/namespaces/n/"


def write(t):
    write_agreement(t)
    write_traps(t)
    write_disagreement(t)


def write_agreement(t):
    t.note("each listed name sought whole gives the target, or the refusal, that the listing showed")
    t.snapshot(worktree=rising(oid("refs/bisect/bad", "4"), ref("refs/worktree/w", "refs/heads/a")),
               common=rising(ref("refs/heads/a", "refs/heads/b"), file("refs/heads/j", "junk"), unreadable("refs/heads/u"),
                             file("refs/heads/v", "ref: @"), file("refs/heads/w", "ref: refs/heads/.invalid")),
               packed=[record("refs/heads/u", "2"), record("refs/heads/x", "3"), record("refs/tags/v1", "5", "6")])
    shown = (("refs/bisect/bad", "object #4 ~", "1 0 0"), ("refs/heads/a", "symbolic 'refs/heads/b' ~", "1 1 0"),
             ("refs/heads/j", 10, "1 2 0"), ("refs/heads/u", 9, "1 3 1"), ("refs/heads/v", 11, "1 4 1"),
             ("refs/heads/w", 12, "1 5 1"), ("refs/heads/x", "object #3 ~", "1 5 2"),
             ("refs/tags/v1", "object #5 #6", "1 5 3"), ("refs/worktree/w", "symbolic 'refs/heads/a' ~", "2 5 3"))
    t.ask("list 10", *(listed(*entry) for entry in shown), "ended at 2 5 3")
    for name, answer, _ in shown:
        t.ask(f"find '{name}'", refused(answer) or f"found '{name}' {answer}")


def refused(answer):
    return isinstance(answer, int) and f"refused {answer}"


def listed(name, answer, positions):
    return (refused(answer) or f"ref '{name}' {answer}") + f" at {positions}"


def write_traps(t):
    t.note("agreement: a private name in common and packed; both show the packed one")
    t.snapshot(common=[oid("refs/bisect/x", "1")], packed=[record("refs/bisect/x", "2")])
    t.ask("list 1", "ref 'refs/bisect/x' object #2 ~ at 0 0 1")
    t.ask("find 'refs/bisect/x'", "found 'refs/bisect/x' object #2 ~")
    t.note("agreement: private names that are only packed, but for refs/worktree/")
    t.snapshot(packed=[record("refs/bisect/x", "1"), record("refs/rewritten/x", "2")])
    t.ask("list 2", "ref 'refs/bisect/x' object #1 ~ at 0 0 1", "ref 'refs/rewritten/x' object #2 ~ at 0 0 2")
    t.ask("find 'refs/bisect/x'", "found 'refs/bisect/x' object #1 ~")
    t.ask("find 'refs/rewritten/x'", "found 'refs/rewritten/x' object #2 ~")
    t.note("agreement: without a common region the worktree may hold shared names, and files that are not listed")
    t.snapshot(worktree=rising(oid("HEAD", "3"), oid("refs/heads/a", "1"), oid("refs/heads/b.", "3")),
               packed=[record("refs/heads/a", "2")])
    t.ask("list 2", "ref 'refs/heads/a' object #1 ~ at 2 0 1", "ended at 2 0 1")
    t.ask("find 'refs/heads/a'", "found 'refs/heads/a' object #1 ~")


def write_disagreement(t):
    t.note("no agreement, not fit for search: names out of order")
    t.snapshot(worktree=[oid("refs/heads/b", "1"), oid("refs/heads/a", "2")])
    t.ask("list 1", "ref 'refs/heads/b' object #1 ~ at 1 0 0")
    t.ask("find 'refs/heads/b'", "refused 8 worktree 1")
    t.note("no agreement, a held name is a directory of another")
    t.snapshot(worktree=[oid("refs/heads/a", "1")], packed=[record("refs/heads/a/b", "2")])
    t.ask("list 2", "ref 'refs/heads/a' object #1 ~ at 1 0 0", "ref 'refs/heads/a/b' object #2 ~ at 1 0 1")
    t.ask("find 'refs/heads/a/b'", "absent")
    t.note("no agreement, a packed name does not begin refs/")
    t.snapshot(packed=[record("HEAD", "1"), record("a/b", "2")])
    t.ask("list 2", "ref 'HEAD' object #1 ~ at 0 0 1", "ref 'a/b' object #2 ~ at 0 0 2")
    t.ask("find 'HEAD'", "absent")
    t.ask("find 'a/b'", "absent")
    t.note("no agreement, a packed name begins refs/worktree/")
    t.snapshot(packed=[record("refs/worktree/x", "1")])
    t.ask("list 1", "ref 'refs/worktree/x' object #1 ~ at 0 0 1")
    t.ask("find 'refs/worktree/x'", "absent")
    t.note("no agreement, a shared name in the worktree beside a common region")
    t.snapshot(worktree=[oid("refs/heads/a", "1")], common=[oid("refs/heads/a", "2")])
    t.ask("list 1", "ref 'refs/heads/a' object #1 ~ at 1 1 0")
    t.ask("find 'refs/heads/a'", "found 'refs/heads/a' object #2 ~")
    t.snapshot(worktree=[oid("refs/heads/a", "1")], common=[])
    t.ask("list 1", "ref 'refs/heads/a' object #1 ~ at 1 0 0")
    t.ask("find 'refs/heads/a'", "absent")
    t.note("no agreement in a namespace: HEAD only packed")
    t.snapshot(packed=[record(N + "HEAD", "1")], namespace="n")
    t.ask("list 1", "ref 'HEAD' object #1 ~ at 0 0 1")
    t.ask("find 'HEAD'", "absent")
