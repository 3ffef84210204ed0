"""Document 01, raw_ext.rs and the rows 13 to 15: following symbolic references."""

from table import file, oid, record, ref, rising, unreadable

N = "refs/namespaces/n/"


def chain(names, last):
    """Each name leads to the next; the last block is given."""
    return rising(*[ref(name, target) for name, target in zip(names, names[1:])], last)


def write(t):
    write_depth(t)
    write_ends(t)
    write_refused(t)
    write_names(t)
    write_namespaces(t)
    write_long_names(t)


def write_depth(t):
    t.note("'from A, a cycle of four references is 14': B, C, D, A are seen, then B again; the last reached is A")
    t.snapshot(worktree=[ref("A", "B"), ref("B", "C"), ref("C", "D"), ref("D", "A")])
    t.ask("follow 'A'", "refused 14 'A'")
    t.ask("follow 'C'", "refused 14 'C'")
    t.note("'a cycle of five is 15': the fifth name seen is A itself")
    t.snapshot(worktree=[ref("A", "B"), ref("B", "C"), ref("C", "D"), ref("D", "E"), ref("E", "A")])
    t.ask("follow 'A'", "refused 15 'A'")
    t.ask("follow 'D'", "refused 15 'D'")
    t.note("'an object reached as the fifth step is 15', as the fourth it is the id")
    t.snapshot(worktree=chain("ABCDEF", oid("F", "1")))
    t.ask("follow 'A'", "refused 15 'F'")
    t.ask("follow 'B'", "id #1 'F'")
    t.ask("follow 'C'", "id #1 'F'")
    t.ask("follow 'E'", "id #1 'F'")
    t.ask("follow 'F'", "id #1 'F'")
    t.note("the same with a packed object: 15 and the record's name")
    t.snapshot(worktree=[ref("A", "B"), ref("B", "C"), ref("C", "D"), ref("D", "E"), ref("E", "refs/heads/f")],
               packed=[record("refs/heads/f", "1", "2")])
    t.ask("follow 'A'", "refused 15 'refs/heads/f'")
    t.ask("follow 'B'", "id #1 'refs/heads/f'")
    t.note("a longer chain: the fifth name seen ends it, whatever it holds")
    t.snapshot(worktree=chain("ABCDEFGH", oid("H", "1")))
    t.ask("follow 'A'", "refused 15 'F'")
    t.ask("follow 'C'", "refused 15 'H'")
    t.ask("follow 'D'", "id #1 'H'")
    t.note("15 comes before what the fifth's target would give")
    t.snapshot(worktree=[ref("A", "B"), ref("B", "C"), ref("C", "D"), ref("D", "E"), ref("E", "F"), ref("F", "Z")])
    t.ask("follow 'A'", "refused 15 'F'")
    t.ask("follow 'B'", "refused 13 'F'")
    t.note("misreading three: the starting reference is not counted as seen, so A that leads to itself is passed twice")
    t.snapshot(worktree=[ref("A", "A")])
    t.ask("follow 'A'", "refused 14 'A'")
    t.note("a cycle of two, and one behind a tail; 14 gives the reference before the repeated one")
    t.snapshot(worktree=[ref("A", "B"), ref("B", "A"), ref("T", "A")])
    t.ask("follow 'A'", "refused 14 'A'")
    t.ask("follow 'B'", "refused 14 'B'")
    t.ask("follow 'T'", "refused 14 'B'")
    t.note("a tail of one into a cycle of one; a cycle of four behind a tail of one; of three behind a tail of one")
    t.snapshot(worktree=[ref("A", "B"), ref("B", "B")])
    t.ask("follow 'A'", "refused 14 'B'")
    t.snapshot(worktree=[ref("A", "B"), ref("B", "C"), ref("C", "D"), ref("D", "A"), ref("T", "A")])
    t.ask("follow 'T'", "refused 14 'D'")
    t.snapshot(worktree=[ref("A", "B"), ref("B", "C"), ref("C", "A"), ref("T", "A"), ref("U", "T")])
    t.ask("follow 'T'", "refused 14 'C'")
    t.ask("follow 'U'", "refused 14 'C'")


def write_ends(t):
    t.note("an object at once: its id and its own name, loose or packed")
    t.snapshot(worktree=[oid("refs/heads/a", "1")],
               packed=[record("refs/heads/b", "2"), record("refs/tags/v", "3", "4")])
    t.ask("follow 'a'", "id #1 'refs/heads/a'")
    t.ask("follow 'b'", "id #2 'refs/heads/b'")
    t.note("'ends following, peeled id or not, and its id is the one given'")
    t.ask("follow 'v'", "id #3 'refs/tags/v'")
    t.snapshot(worktree=[ref("HEAD", "refs/tags/v")], packed=[record("refs/tags/v", "3", "4")])
    t.ask("follow 'HEAD'", "id #3 'refs/tags/v'")
    t.note("'\"not there\" where the first search does'")
    t.ask("follow 'nobody'", "absent")
    t.note("13: target not found, and the reference whose target is missing")
    t.snapshot(worktree=[ref("HEAD", "refs/heads/s"), ref("refs/heads/s", "refs/heads/none")])
    t.ask("follow 'HEAD'", "refused 13 'refs/heads/s'")
    t.ask("follow 's'", "refused 13 'refs/heads/s'")
    t.note("13 where the target is absent by a directory clash, though packed has it")
    t.snapshot(worktree=[ref("HEAD", "refs/heads/a/b"), oid("refs/heads/a", "1")],
               packed=[record("refs/heads/a/b", "2")])
    t.ask("follow 'HEAD'", "refused 13 'HEAD'")


def write_refused(t):
    t.note("'Search and following give 9 to 12 [..] as the number alone': at once and behind a step")
    t.snapshot(worktree=rising(
        ref("A", "refs/u"), ref("B", "refs/j"), ref("C", "refs/i"), ref("D", "refs/r"), unreadable("refs/u"),
        file("refs/j", "junk"), file("refs/i", "ref: i"), ref("refs/r", "refs/heads/.invalid")))
    for pseudo, short, number in (("A", "u", 9), ("B", "j", 10), ("C", "i", 11), ("D", "r", 12)):
        t.ask(f"follow '{pseudo}'", f"refused {number}")
        t.ask(f"follow '{short}'", f"refused {number}")
    t.note("a file that hides a later candidate of the target ends following")
    t.snapshot(worktree=[ref("HEAD", "x/y"), file("refs/heads/x/y", "junk")], packed=[record("refs/remotes/x/y", "1")])
    t.ask("follow 'HEAD'", "refused 10")


def write_names(t):
    t.note("'Following searches each target as a partial name again': all candidates")
    t.snapshot(worktree=[ref("A", "x/y"), ref("B", "refs/heads/z"), oid("refs/heads/x/y", "1"),
                         oid("tags/refs/heads/z", "2")])
    t.ask("follow 'A'", "id #1 'refs/heads/x/y'")
    t.ask("follow 'B'", "id #2 'tags/refs/heads/z'")
    t.note("the target `P`: first P itself, then refs/P and so on")
    t.snapshot(worktree=[ref("A", "P"), ref("B", "O"), oid("refs/remotes/O/HEAD", "2")],
               packed=[record("refs/tags/P", "1")])
    t.ask("follow 'A'", "id #1 'refs/tags/P'")
    t.ask("follow 'B'", "id #2 'refs/remotes/O/HEAD'")
    t.note("a target of HEAD has five candidates")
    t.snapshot(worktree=[ref("A", "HEAD"), oid("refs/remotes/HEAD/HEAD", "1")])
    t.ask("follow 'A'", "refused 13 'A'")
    t.note("the last reference reached bears the candidate's name when loose, the record's when packed")
    t.snapshot(worktree=[ref("A", "main-worktree/refs/heads/l"), ref("B", "worktrees/w/refs/heads/p")],
               common=[oid("refs/heads/l", "1")], packed=[record("refs/heads/p", "2")])
    t.ask("follow 'A'", "id #1 'main-worktree/refs/heads/l'")
    t.ask("follow 'B'", "id #2 'refs/heads/p'")
    t.note("names seen are compared as answered: one file under two names is no cycle until a name comes again")
    t.snapshot(worktree=[ref("HEAD", "main-worktree/refs/heads/s")], common=[ref("refs/heads/s", "refs/heads/s")])
    t.ask("follow 'HEAD'", "refused 14 'refs/heads/s'")
    t.note("an object under a seen name is 14; from that name itself it is the id")
    t.snapshot(worktree=[ref("HEAD", "refs/bisect/x"), ref("refs/bisect/x", "worktrees/w/refs/bisect/x")], common=[],
               packed=[record("refs/bisect/x", "1")])
    t.ask("follow 'HEAD'", "refused 14 'refs/bisect/x'")
    t.ask("follow 'refs/bisect/x'", "id #1 'refs/bisect/x'")
    t.note("routing in following: HEAD of worktree leads to common, and to packed below it")
    t.snapshot(worktree=[ref("HEAD", "refs/heads/m"), oid("refs/heads/m", "1")], common=[oid("refs/heads/m", "2")],
               packed=[record("refs/heads/m", "3")])
    t.ask("follow 'HEAD'", "id #2 'refs/heads/m'")
    t.snapshot(worktree=[ref("HEAD", "refs/heads/m"), oid("refs/heads/m", "1")], common=[],
               packed=[record("refs/heads/m", "3")])
    t.ask("follow 'HEAD'", "id #3 'refs/heads/m'")


def write_namespaces(t):
    t.note("a target in the namespace is stripped, one outside it is sought below it all the same")
    t.snapshot(worktree=rising(
        ref(N + "A", N + "refs/heads/m"), ref(N + "B", "refs/heads/m"), ref(N + "C", "refs/namespaces/o/x"),
        oid(N + "refs/heads/m", "1"), oid("refs/heads/m", "2"), oid("refs/namespaces/o/x", "3")), namespace="n")
    t.ask("follow 'A'", "id #1 'refs/heads/m'")
    t.ask("follow 'B'", "id #1 'refs/heads/m'")
    t.ask("follow 'C'", "refused 13 'C'")
    t.note("a stripped target may be incomplete or malformed and is sought unchecked: `m`, `@`, `s`")
    t.snapshot(worktree=[ref(N + "A", N + "m"), ref(N + "B", N + "@"), ref(N + "C", N + "s"),
                         oid(N + "refs/heads/@", "2"),
                         ref(N + "refs/heads/s", N + "none"), oid(N + "refs/tags/m", "1")], namespace="n")
    t.ask("follow 'A'", "id #1 'refs/tags/m'")
    t.ask("follow 'B'", "id #2 'refs/heads/@'")
    t.ask("follow '@'", "refused 4")
    t.ask("find 'B'", "found 'B' symbolic '@' ~")
    t.ask("follow 'C'", "refused 13 'refs/heads/s'")
    t.note("cycles and depth in a namespace, the names stripped")
    t.snapshot(worktree=[ref(N + "A", N + "B"), ref(N + "B", "A")], namespace="n")
    t.ask("follow 'A'", "refused 14 'A'")
    t.set("namespace", None)
    t.ask("follow 'namespaces/n/A'", f"refused 13 '{N}B'")
    t.note("without the namespace a target is sought as it stands")
    t.ask(f"follow '{N}B'", f"refused 13 '{N}B'")


def write_long_names(t):
    target = "refs/" + "t" * 240
    t.note("a target of 245 bytes, the longest a content holds, and names of 249, 250 and 251 bytes")
    t.snapshot(worktree=[file("A", "ref: " + target), oid(target, "1")])
    t.ask("follow 'A'", f"id #1 '{target}'")
    t.snapshot(worktree=rising(ref("refs/heads/" + "s" * 239, "A"), oid("A", "1"), oid("refs/heads/" + "s" * 238, "2")))
    t.ask(f"follow '{'s' * 239}'", "id #1 'A'")
    t.ask(f"follow 'refs/heads/{'s' * 239}'", "id #1 'A'")
    t.ask(f"follow 'refs/heads/{'s' * 238}'", f"id #2 'refs/heads/{'s' * 238}'")
    t.ask(f"follow 'refs/heads/{'s' * 240}'", "refused 3")
    t.ask(f"follow '{'s' * 249}'", "absent")
    t.ask(f"follow '{'s' * 250}'", "absent")
    t.ask(f"follow '{'s' * 251}'", "refused 3")
    t.note("a long name as the last reference reached")
    t.snapshot(worktree=[ref("A" * 250, "B")])
    t.ask(f"follow '{'A' * 250}'", f"refused 13 '{'A' * 250}'")
