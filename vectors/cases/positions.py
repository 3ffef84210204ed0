"""Document 01, 'Listing': positions, blocks passed over, and listings in a namespace."""

from table import PACKED_ERROR, WALK_ERROR, block, file, hurt, oid, record, ref, rising, unreadable

N = "refs/namespaces/n/"
MANY = 2 ** 64 - 1


def write(t):
    write_positions(t)
    write_passed_over(t)
    write_namespaces(t)
    write_namespace_errors(t)


def write_positions(t):
    t.note("a step from the middle, past the end, the largest number; 'A position past a region is its end'")
    t.snapshot(worktree=[oid("refs/a", "1"), oid("refs/b", "2")], common=[oid("refs/c", "3")],
               packed=[record("refs/a", "4"), record("refs/d", "5", "6")])
    t.ask("step 0 0 0", "ref 'refs/a' object #1 ~ at 1 0 1")
    t.ask("step 1 0 0", "ref 'refs/a' object #4 ~ at 1 0 1")
    t.ask("step 0 0 1", "ref 'refs/a' object #1 ~ at 1 0 1")
    t.ask("step 1 0 1", "ref 'refs/b' object #2 ~ at 2 0 1")
    t.ask("step 2 0 1", "ref 'refs/c' object #3 ~ at 2 1 1")
    t.ask("step 2 1 1", "ref 'refs/d' object #5 #6 at 2 1 2")
    t.ask("step 2 1 2", "ended at 2 1 2")
    t.ask("step 3 2 3", "ended at 3 2 3")
    t.ask("step 2 1 3", "ended at 2 1 3")
    t.ask("step 5 0 1", "ref 'refs/c' object #3 ~ at 5 1 1")
    t.ask(f"step {MANY} {MANY} {MANY}", f"ended at {MANY} {MANY} {MANY}")
    t.ask(f"step 1 {MANY} {MANY}", f"ref 'refs/b' object #2 ~ at 2 {MANY} {MANY}")
    t.ask(f"step {MANY} 0 {MANY}", f"ref 'refs/c' object #3 ~ at {MANY} 1 {MANY}")
    t.ask(f"step {MANY} {MANY} 1", f"ref 'refs/d' object #5 #6 at {MANY} {MANY} 2")
    t.note("positions that times 512 would pass 2^64 or come round to a block again")
    t.ask("step 36028797018963968 36028797018963968 36028797018963968",
          "ended at 36028797018963968 36028797018963968 36028797018963968")
    t.ask("step 36028797018963969 36028797018963968 36028797018963968",
          "ended at 36028797018963969 36028797018963968 36028797018963968")
    t.ask("step 4294967296 4294967296 4294967296", "ended at 4294967296 4294967296 4294967296")
    t.ask("step 8388608 8388608 8388608", "ended at 8388608 8388608 8388608")
    t.note("positions in an absent region")
    t.snapshot()
    t.ask(f"step 0 7 {MANY}", f"ended at 0 7 {MANY}")


def write_passed_over(t):
    t.note("'blocks passed over do not move it by themselves': behind what was handed out, and at the end")
    t.snapshot(worktree=[oid("HEAD", "1"), oid("refs/a", "2"), oid("refs/b..c", "3"), oid("zzz", "4")],
               common=[oid("refs/bisect/a", "5"), oid("refs/bisect/b", "6"), oid("refs/heads/z", "7"),
                       oid("refs/worktree/a", "8")])
    t.ask("list 3", "ref 'refs/a' object #2 ~ at 2 0 0", "ref 'refs/heads/z' object #7 ~ at 2 3 0", "ended at 2 3 0")
    t.ask("step 1 1 0", "ref 'refs/a' object #2 ~ at 2 1 0")
    t.ask("step 2 1 0", "ref 'refs/heads/z' object #7 ~ at 2 3 0")
    t.ask("step 3 3 0", "ended at 3 3 0")
    t.note("a position behind private blocks, among them and before them leads to the same entry")
    t.ask("step 4 0 0", "ref 'refs/heads/z' object #7 ~ at 4 3 0")
    t.ask("step 4 1 0", "ref 'refs/heads/z' object #7 ~ at 4 3 0")
    t.ask("step 4 2 0", "ref 'refs/heads/z' object #7 ~ at 4 3 0")
    t.note("a private name of common is not consumed with the same name of worktree")
    t.snapshot(worktree=[oid("refs/bisect/a", "1")], common=[oid("refs/bisect/a", "2"), oid("refs/c", "3")],
               packed=[record("refs/bisect/a", "4")])
    t.ask("list 3", "ref 'refs/bisect/a' object #1 ~ at 1 0 1", "ref 'refs/c' object #3 ~ at 1 2 1", "ended at 1 2 1")


def write_namespaces(t):
    t.note("'with one, all begin with its expansion'; names and symbolic targets are stripped once")
    t.snapshot(worktree=rising(oid("refs/heads/o", "1"), oid(N + "HEAD", "2"),
                               ref(N + "refs/heads/s", N + "refs/heads/t")),
               common=[oid(N + "refs/heads/s", "4"), ref(N + "refs/heads/u", "refs/heads/t"), oid(N + N + "x", "3"),
                       oid("refs/namespaces/nn/refs/heads/v", "5")],
               packed=[record("refs/heads/p", "6"), record(N + "refs/heads/t", "7", "8"), record("refs/tags/v", "9")],
               namespace="n")
    t.ask("list 6", "ref 'HEAD' object #2 ~ at 2 0 0", "ref 'refs/heads/s' symbolic 'refs/heads/t' ~ at 3 1 0",
          "ref 'refs/heads/t' object #7 #8 at 3 1 2", "ref 'refs/heads/u' symbolic 'refs/heads/t' ~ at 3 2 2",
          f"ref '{N}x' object #3 ~ at 3 3 2", "ended at 3 3 2")
    t.note("a step in the namespace now set")
    t.ask("step 2 1 0", "ref 'refs/heads/s' symbolic 'refs/heads/t' ~ at 3 1 0")
    t.set("namespace", b"n/n")
    t.ask("list 2", "ref 'x' object #3 ~ at 0 3 0", "ended at 0 3 0")
    t.set("namespace", b"nn")
    t.ask("list 2", "ref 'refs/heads/v' object #5 ~ at 0 4 0", "ended at 0 4 0")
    t.set("namespace", b"none")
    t.ask("list 1", "ended at 0 0 0")
    t.note("the same regions without a namespace")
    t.set("namespace", None)
    t.ask("list 4", "ref 'refs/heads/o' object #1 ~ at 1 0 0", "ref 'refs/heads/p' object #6 ~ at 1 0 1",
          f"ref '{N}HEAD' object #2 ~ at 2 0 1", f"ref '{N}refs/heads/s' symbolic '{N}refs/heads/t' ~ at 3 1 1")
    t.note("under a namespace nothing is private, since the name before stripping counts")
    t.snapshot(worktree=[oid(N + "refs/bisect/a", "1")],
               common=[oid(N + "refs/bisect/b", "2"), oid(N + "refs/worktree/c", "3")],
               packed=[record(N + "refs/bisect/b", "4")], namespace="n")
    t.ask("list 4", "ref 'refs/bisect/a' object #1 ~ at 1 0 0", "ref 'refs/bisect/b' object #2 ~ at 1 1 1",
          "ref 'refs/worktree/c' object #3 ~ at 1 2 1", "ended at 1 2 1")
    t.note("a loose name in the namespace must be well formed as a whole; the expansion itself as a file is malformed")
    t.snapshot(worktree=[oid(N, "1"), oid(N + "@", "2"), oid(N + "a", "3"), oid(N + "a..b", "4")], namespace="n")
    t.ask("list 3", "ref '@' object #2 ~ at 2 0 0", "ref 'a' object #3 ~ at 3 0 0", "ended at 3 0 0")


def write_namespace_errors(t):
    t.note("under a namespace error entries always count, wherever they stand")
    t.snapshot(worktree=[oid("refs/a", "1"), hurt(oid("refs/b", "2"))], common=[oid("refs/a", "3"), WALK_ERROR],
               packed=[record("refs/a", "4"), PACKED_ERROR, record("refs/c", "5"), record(N + "refs/x", "6")],
               namespace="n")
    t.ask("list 5", "refused 7 at 0 0 2", "refused 7 at 0 2 2", "refused 6 at 2 2 2",
          "ref 'refs/x' object #6 ~ at 2 2 4",
          "ended at 2 2 4")
    t.note("'each block is judged by itself': a packed region out of order, other names in between and in front")
    t.snapshot(packed=[record("refs/z", "1"), record(N + "b", "2"), record("refs/y", "3"), record(N + "a", "4"),
                       block(4)],
               namespace="n")
    t.ask("list 4", "ref 'b' object #2 ~ at 0 0 2", "ref 'a' object #4 ~ at 0 0 4", "refused 6 at 0 0 5",
          "ended at 0 0 5")
    t.note("9 to 12 under a namespace: only names in it")
    t.snapshot(worktree=rising(unreadable("refs/a"), unreadable(N + "b"), file(N + "c", "ref: " + N),
                               file(N + "d", "ref: " + N + "@")), namespace="n")
    t.ask("list 4", "refused 9 at 2 0 0", "refused 11 at 3 0 0", "ref 'd' symbolic '@' ~ at 4 0 0", "ended at 4 0 0")
