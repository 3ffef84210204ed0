"""Document 01, 'Search' in a namespace, and paths over 250 bytes; document 02, 'Cuts inside a namespace'."""

from table import oid, record, ref, rising

N = "refs/namespaces/n/"


def write(t):
    write_namespaces(t)
    write_long_paths(t)
    write_cuts(t)
    write_no_cuts(t)


def write_namespaces(t):
    t.note("'The namespace goes before the routed name and, packed, before the name' sought; answers are stripped")
    worktree = [ref(N + "HEAD", N + "refs/heads/m"), oid(N + "refs/bisect/x", "1"), oid("refs/worktree/o", "2")]
    common = [ref(N + "A", N + N + "refs/heads/m"), oid(N + "refs/bisect/y", "3"), oid(N + "refs/heads/m", "4"),
              ref(N + "refs/heads/s", "refs/heads/m"), oid("refs/namespaces/nn/refs/heads/z", "5")]
    packed = [record("refs/heads/o", "6"), record(N + "refs/bisect/p", "7"), record(N + "refs/heads/p", "8", "9"),
              record(N + "refs/worktree/x", "a")]
    t.snapshot(worktree=worktree, common=common, packed=packed, namespace="n")
    t.ask("find 'm'", "found 'refs/heads/m' object #4 ~")
    t.ask("find 'p'", "found 'refs/heads/p' object #8 #9")
    t.ask("find 'HEAD'", "found 'HEAD' symbolic 'refs/heads/m' ~")
    t.ask("find 's'", "found 'refs/heads/s' symbolic 'refs/heads/m' ~")
    t.note("stripping a target happens once")
    t.ask("find 'main-worktree/A'", f"found 'main-worktree/A' symbolic '{N}refs/heads/m' ~")
    t.note("names outside the namespace, or of one that begins alike, are not there")
    t.ask("find 'o'", "absent")
    t.ask("find 'refs/heads/o'", "absent")
    t.ask("find 'z'", "absent")
    t.ask("find 'refs/worktree/o'", "absent")
    t.note("in a namespace the candidate's category still routes: private names are read in worktree")
    t.ask("find 'refs/bisect/x'", "found 'refs/bisect/x' object #1 ~")
    t.ask("find 'refs/bisect/y'", "absent")
    t.ask("find 'main-worktree/refs/bisect/y'", "found 'main-worktree/refs/bisect/y' object #3 ~")
    t.ask("find 'refs/bisect/p'", "found 'refs/bisect/p' object #7 ~")
    t.ask("find 'refs/worktree/x'", "absent")
    t.ask("find 'worktrees/w/refs/worktree/x'", "found 'refs/worktree/x' object #a ~")
    t.note("without the namespace the same names are found whole")
    t.set("namespace", None)
    t.ask(f"find '{N}refs/heads/m'", f"found '{N}refs/heads/m' object #4 ~")
    t.ask("find 'namespaces/n/refs/heads/p'", f"found '{N}refs/heads/p' object #8 #9")
    t.ask("find 'HEAD'", "absent")
    t.note("another namespace")
    t.set("namespace", b"nn")
    t.ask("find 'z'", "found 'refs/heads/z' object #5 ~")
    t.ask("find 'm'", "absent")
    t.note("the expansion sought in its own namespace: stripped from the candidate when loose, once from the record")
    t.snapshot(worktree=[oid(N + N + "refs/heads/l", "1")], packed=[record(N + N + "refs/heads/p", "2")], namespace="n")
    t.ask(f"find '{N}refs/heads/l'", "found 'refs/heads/l' object #1 ~")
    t.ask(f"find '{N}refs/heads/p'", f"found '{N}refs/heads/p' object #2 ~")
    t.note("a namespace of two components")
    t.set("namespace", b"n/n")
    t.ask("find 'l'", "found 'refs/heads/l' object #1 ~")
    t.ask("find 'p'", "found 'refs/heads/p' object #2 ~")
    t.note("a file above the whole namespace, or between it and the name, clashes")
    t.snapshot(worktree=[oid("refs/namespaces/n", "1")], packed=[record(N + "refs/heads/a", "2")], namespace="n")
    t.ask("find 'a'", "absent")
    t.snapshot(worktree=[oid(N + "refs", "1")], packed=[record(N + "refs/heads/a", "2")], namespace="n")
    t.ask("find 'a'", "absent")
    t.note("a file outside the namespace does not")
    t.snapshot(worktree=[oid("refs/heads", "1")], packed=[record(N + "refs/heads/a", "2")], namespace="n")
    t.ask("find 'a'", "found 'refs/heads/a' object #2 ~")


def write_long_paths(t):
    front = "refs/namespaces/" + "n" * 30 + "/"
    long, fits = "w" * 180, "w" * 179
    packed = [record(front + "refs/bisect/x", "1")]
    t.note("the joined loose path has 251 bytes, the joined packed name does not: found packed")
    t.snapshot(common=[], packed=packed, namespace="n" * 30)
    t.ask(f"find 'worktrees/{long}/refs/bisect/x'", "found 'refs/bisect/x' object #1 ~")
    t.note("the directory clash is still tested on the longer path: at its first component, at its middle, at its end")
    t.snapshot(common=[oid(front + "worktrees", "2")], packed=packed, namespace="n" * 30)
    t.ask(f"find 'worktrees/{long}/refs/bisect/x'", "absent")
    t.snapshot(common=[oid(front + "worktrees/" + long, "2")], packed=packed, namespace="n" * 30)
    t.ask(f"find 'worktrees/{long}/refs/bisect/x'", "absent")
    t.ask(f"find 'worktrees/{long}w/refs/bisect/x'", "found 'refs/bisect/x' object #1 ~")
    t.snapshot(common=[oid(front + "worktrees/" + long + "/refs/bisect", "2")], packed=packed, namespace="n" * 30)
    t.ask(f"find 'worktrees/{long}/refs/bisect/x'", "absent")
    t.note("a file that begins the longer path without being above it is no clash")
    t.snapshot(common=[oid(front + "worktrees/" + long + "/refs/bisec", "2")], packed=packed, namespace="n" * 30)
    t.ask(f"find 'worktrees/{long}/refs/bisect/x'", "found 'refs/bisect/x' object #1 ~")
    t.note("a path of just 250 bytes is found loose")
    t.snapshot(common=[oid(f"{front}worktrees/{fits}/refs/bisect/x", "2")], packed=packed, namespace="n" * 30)
    t.ask(f"find 'worktrees/{fits}/refs/bisect/x'", f"found 'worktrees/{fits}/refs/bisect/x' object #2 ~")
    t.note("a candidate of 250 bytes below an expansion of 250 bytes: nothing can be there")
    t.snapshot(packed=packed, namespace="n" * 233)
    t.ask(f"find 'refs/heads/{'a' * 239}'", "absent")
    t.ask("find 'a'", "absent")


def write_cuts(t):
    t.note("a cut in a namespace: a branch loose over a stale record, or packed; stripped, and answered alike")
    head = ref(N + "HEAD", N + "refs/heads/a")
    for common, packed in (([oid(N + "refs/heads/a", "1")], record(N + "refs/heads/a", "2", "3")),
                           ([], record(N + "refs/heads/a", "1"))):
        t.snapshot(worktree=[head], common=common, packed=[packed], namespace="n")
        t.ask("follow 'HEAD'", "id #1 'refs/heads/a'")
        t.ask("find 'refs/heads/a'", "found 'refs/heads/a' object #1 ~")
        t.ask("list 3", "ref 'HEAD' symbolic 'refs/heads/a' ~ at 1 0 0",
              f"ref 'refs/heads/a' object #1 ~ at 1 {len(common)} 1", f"ended at 1 {len(common)} 1")
    t.note("refs/remotes/HEAD, with nothing between, may be packed as well")
    for cut in ({"worktree": [oid(N + "refs/remotes/HEAD", "1")]}, {"packed": [record(N + "refs/remotes/HEAD", "1")]}):
        t.snapshot(namespace="n", **cut)
        t.ask("follow 'remotes/HEAD'", "id #1 'refs/remotes/HEAD'")


def write_no_cuts(t):
    t.note("no cut, the expansion twice over: a loose answer bears the candidate's name, a packed one the record's")
    chain = [ref(N + "HEAD", N + "refs/heads/m"), ref(N + "refs/heads/m", N + N + "refs/heads/m")]
    for loose, packed, followed in (([oid(N + N + "refs/heads/m", "1")], [], "refused 14 'refs/heads/m'"),
                                    ([], [record(N + N + "refs/heads/m", "1")], f"id #1 '{N}refs/heads/m'")):
        t.snapshot(worktree=rising(*chain, *loose), packed=packed, namespace="n")
        t.ask("follow 'HEAD'", followed)
        end = f"{2 + len(loose)} 0 {len(packed)}"
        t.ask("list 4", "ref 'HEAD' symbolic 'refs/heads/m' ~ at 1 0 0",
              f"ref 'refs/heads/m' symbolic '{N}refs/heads/m' ~ at 2 0 0",
              f"ref '{N}refs/heads/m' object #1 ~ at {end}", f"ended at {end}")
    t.note("no cut, though the name twice over is alike in both: its file is answered refs/heads/a, as is the record")
    seen = [ref(N + "HEAD", N + N + "refs/heads/a"), ref(N + N + "refs/heads/a", "main-worktree/refs/heads/a")]
    t.snapshot(worktree=rising(*seen, oid(N + "refs/heads/a", "1")), namespace="n")
    t.ask("follow 'HEAD'", "id #1 'main-worktree/refs/heads/a'")
    t.snapshot(worktree=rising(*seen), packed=[record(N + "refs/heads/a", "1")], namespace="n")
    t.ask("follow 'HEAD'", "refused 14 'refs/heads/a'")
    t.note("no cut, the remainder is private, though the whole name is not: never sought packed, or not read in common")
    for name in ("HEAD", "refs/worktree/x"):
        t.snapshot(worktree=[oid(N + name, "1")], namespace="n")
        t.ask(f"follow '{name}'", f"id #1 '{name}'")
        t.snapshot(packed=[record(N + name, "1")], namespace="n")
        t.ask(f"follow '{name}'", "absent")
    t.snapshot(common=[oid(N + "refs/bisect/x", "1")], namespace="n")
    t.ask("follow 'refs/bisect/x'", "absent")
    t.snapshot(common=[], packed=[record(N + "refs/bisect/x", "1")], namespace="n")
    t.ask("follow 'refs/bisect/x'", "id #1 'refs/bisect/x'")
    t.note("no cut, the remainder is refs/remotes/../HEAD, or not under refs/: for o and refs/a never sought packed")
    for name, sought in (("refs/remotes/o/HEAD", "o"), ("remotes/refs/a/HEAD", "refs/a")):
        t.snapshot(worktree=[oid(N + name, "1")], namespace="n")
        t.ask(f"follow '{sought}'", f"id #1 '{name}'")
        t.snapshot(packed=[record(N + name, "1")], namespace="n")
        t.ask(f"follow '{sought}'", "absent")
