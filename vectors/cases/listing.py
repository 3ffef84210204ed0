"""Document 01, 'Listing': what is shown, what comes first, and where the positions stand after each step."""

from table import PACKED_ERROR, WALK_ERROR, file, hurt, oid, record, ref, unreadable


def write(t):
    write_example(t)
    write_filter(t)
    write_private(t)
    write_equal(t)
    write_error_order(t)
    write_error_alone(t)
    write_refused_entries(t)
    write_disorder(t)


def write_example(t):
    t.note("the snapshot that document 01 shows with `reflist`")
    t.snapshot(worktree=[oid("refs/bisect/bad", "4")], common=[oid("refs/heads/main", "1")],
               packed=[record("refs/heads/main", "2"), record("refs/tags/v1", "3")])
    t.ask("list 5", "ref 'refs/bisect/bad' object #4 ~ at 1 0 0", "ref 'refs/heads/main' object #1 ~ at 1 1 1",
          "ref 'refs/tags/v1' object #3 ~ at 1 1 2", "ended at 1 1 2", "ended at 1 1 2")
    t.note("the opening alone, and one step")
    t.ask("list 0")
    t.ask("list 1", "ref 'refs/bisect/bad' object #4 ~ at 1 0 0")
    t.note("a listing over empty regions has ended when its first step says so")
    t.snapshot()
    t.ask("list 2", "ended at 0 0 0", "ended at 0 0 0")
    t.snapshot(common=[], packed=[])
    t.ask("list 1", "ended at 0 0 0")
    t.note("'absent lists as empty': common absent and empty alike")
    t.snapshot(worktree=[oid("refs/bisect/a", "1"), oid("refs/heads/a", "2")])
    t.ask("list 3", "ref 'refs/bisect/a' object #1 ~ at 1 0 0", "ref 'refs/heads/a' object #2 ~ at 2 0 0",
          "ended at 2 0 0")
    t.set("common", b"")
    t.ask("list 3", "ref 'refs/bisect/a' object #1 ~ at 1 0 0", "ref 'refs/heads/a' object #2 ~ at 2 0 0",
          "ended at 2 0 0")


def write_filter(t):
    t.note("'loose entries begin `refs/` and packed is unfiltered'")
    t.snapshot(worktree=[oid("HEAD", "1"), oid("a/b", "2"), oid("refs", "3"), oid("refs/a", "4"), oid("refsx/a", "5"),
                         oid("worktrees/w/HEAD", "6")],
               packed=[record("HEAD", "7"), record("a", "8"), record("main-worktree/HEAD", "9"),
                       record("refs/b", "a", "b")])
    t.ask("list 6", "ref 'HEAD' object #7 ~ at 0 0 1", "ref 'a' object #8 ~ at 0 0 2",
          "ref 'main-worktree/HEAD' object #9 ~ at 0 0 3", "ref 'refs/a' object #4 ~ at 4 0 3",
          "ref 'refs/b' object #a #b at 4 0 4", "ended at 4 0 4")
    t.note("'a loose entry whose name is not well formed is skipped', in both loose regions")
    bad = ["", "refs/", "refs/.a", "refs/a..b", "refs/heads/a.", "refs/heads/b.lock", "refs/heads/c//d"]
    t.snapshot(worktree=[oid(name, "1") for name in bad] + [oid("refs/heads/z", "2")],
               common=[unreadable("refs/heads/\x01"), ref("refs/heads/y", "HEAD"), file("refs/heads/y~1", "junk")])
    t.ask("list 3", "ref 'refs/heads/y' symbolic 'HEAD' ~ at 0 2 0", "ref 'refs/heads/z' object #2 ~ at 8 2 0",
          "ended at 8 2 0")


def write_private(t):
    t.note("'Private names of the common region change nothing'; those of worktree and packed are listed")
    t.snapshot(worktree=[oid("refs/bisect/a", "1"), oid("refs/rewritten/a", "2"), oid("refs/worktree/a", "3")],
               common=[oid("refs/bisect/b", "4"), oid("refs/heads/m", "5"), oid("refs/rewritten/b", "6"),
                       unreadable("refs/worktree/a"), oid("refs/worktree/b", "7")],
               packed=[record("refs/bisect/c", "8"), record("refs/rewritten/a", "9"), record("refs/worktree/c", "a")])
    t.ask("list 7", "ref 'refs/bisect/a' object #1 ~ at 1 0 0", "ref 'refs/bisect/c' object #8 ~ at 1 0 1",
          "ref 'refs/heads/m' object #5 ~ at 1 2 1", "ref 'refs/rewritten/a' object #2 ~ at 2 2 2",
          "ref 'refs/worktree/a' object #3 ~ at 3 2 2", "ref 'refs/worktree/c' object #a ~ at 3 2 3", "ended at 3 2 3")
    t.note("names that only look private are shared: refs/bisect itself, refs/worktrees/, refs/heads/bisect/")
    t.snapshot(common=[oid("refs/bisect", "1"), oid("refs/bisect/x", "2"), oid("refs/heads/bisect/x", "3"),
                       oid("refs/rewritten", "4"), oid("refs/worktrees/x", "5")])
    t.ask("list 5", "ref 'refs/bisect' object #1 ~ at 0 1 0", "ref 'refs/heads/bisect/x' object #3 ~ at 0 3 0",
          "ref 'refs/rewritten' object #4 ~ at 0 4 0", "ref 'refs/worktrees/x' object #5 ~ at 0 5 0", "ended at 0 5 0")


def write_equal(t):
    t.note("'Equal names: worktree over common over packed, the lower consumed': all three, each two")
    t.snapshot(worktree=[oid("refs/a", "1"), oid("refs/b", "2"), oid("refs/c", "3")],
               common=[oid("refs/a", "4"), oid("refs/b", "5"), oid("refs/d", "6")],
               packed=[record("refs/a", "7"), record("refs/c", "8"), record("refs/d", "9")])
    t.ask("list 5", "ref 'refs/a' object #1 ~ at 1 1 1", "ref 'refs/b' object #2 ~ at 2 2 1",
          "ref 'refs/c' object #3 ~ at 3 2 2", "ref 'refs/d' object #6 ~ at 3 3 3", "ended at 3 3 3")
    t.note("a packed entry smaller than an equal pair leaves both; a smaller loose one leaves packed")
    t.snapshot(worktree=[oid("refs/b", "1")], common=[oid("refs/b", "2"), oid("refs/c", "3")],
               packed=[record("refs/a", "4"), record("refs/d", "5")])
    t.ask("list 5", "ref 'refs/a' object #4 ~ at 0 0 1", "ref 'refs/b' object #1 ~ at 1 1 1",
          "ref 'refs/c' object #3 ~ at 1 2 1", "ref 'refs/d' object #5 ~ at 1 2 2", "ended at 1 2 2")
    t.note("'the smaller name': common before worktree, by bytes, a proper beginning first")
    t.snapshot(worktree=[oid("refs/heads/a/b", "1"), oid("refs/heads/b", "2")],
               common=[oid("refs/heads/a", "3"), oid("refs/heads/a-c", "4")], packed=[record("refs/heads/a.d", "5")])
    t.ask("list 6", "ref 'refs/heads/a' object #3 ~ at 0 1 0", "ref 'refs/heads/a-c' object #4 ~ at 0 2 0",
          "ref 'refs/heads/a.d' object #5 ~ at 0 2 1", "ref 'refs/heads/a/b' object #1 ~ at 1 2 1",
          "ref 'refs/heads/b' object #2 ~ at 2 2 1", "ended at 2 2 1")


def write_error_order(t):
    t.note("three errors: packed, then common, then worktree; then the names")
    t.snapshot(worktree=[WALK_ERROR, oid("refs/a", "1")], common=[WALK_ERROR, oid("refs/b", "2")],
               packed=[PACKED_ERROR, record("refs/c", "3")])
    t.ask("list 7", "refused 7 at 0 0 1", "refused 7 at 0 1 1", "refused 7 at 1 1 1",
          "ref 'refs/a' object #1 ~ at 2 1 1",
          "ref 'refs/b' object #2 ~ at 2 2 1", "ref 'refs/c' object #3 ~ at 2 2 2", "ended at 2 2 2")
    t.note("'a common error, even before a worktree entry': misreading two")
    t.snapshot(worktree=[oid("refs/a", "1")], common=[WALK_ERROR, oid("refs/b", "2")])
    t.ask("list 4", "refused 7 at 0 1 0", "ref 'refs/a' object #1 ~ at 1 1 0", "ref 'refs/b' object #2 ~ at 1 2 0",
          "ended at 1 2 0")
    t.note("a worktree error before a smaller name of common or packed")
    t.snapshot(worktree=[WALK_ERROR], common=[oid("refs/a", "1")], packed=[record("refs/A", "2")])
    t.ask("list 4", "refused 7 at 1 0 0", "ref 'refs/A' object #2 ~ at 1 0 1", "ref 'refs/a' object #1 ~ at 1 1 1",
          "ended at 1 1 1")
    t.note("'A packed error comes first if loose waits'")
    t.snapshot(worktree=[oid("refs/a", "1")], packed=[PACKED_ERROR, record("refs/a", "2")])
    t.ask("list 3", "refused 7 at 0 0 1", "ref 'refs/a' object #1 ~ at 1 0 2", "ended at 1 0 2")
    t.note("an error waits only when the position comes to it: behind names, each in its turn")
    t.snapshot(worktree=[oid("refs/b", "1"), WALK_ERROR], common=[oid("refs/c", "2"), WALK_ERROR],
               packed=[record("refs/a", "3"), PACKED_ERROR])
    t.ask("list 7", "ref 'refs/a' object #3 ~ at 0 0 1", "refused 7 at 0 0 2", "ref 'refs/b' object #1 ~ at 1 0 2",
          "refused 7 at 2 0 2", "ref 'refs/c' object #2 ~ at 2 1 2", "refused 7 at 2 2 2", "ended at 2 2 2")
    t.note("damaged blocks are errors of the same order, with 6")
    t.snapshot(worktree=[hurt(oid("refs/a", "1"))], common=[hurt(oid("refs/a", "2")), WALK_ERROR],
               packed=[hurt(record("refs/a", "3"))])
    t.ask("list 5", "refused 6 at 0 0 1", "refused 6 at 0 1 1", "refused 7 at 0 2 1", "refused 6 at 1 2 1",
          "ended at 1 2 1")
    t.note("a block of the other region's kind is damaged")
    t.snapshot(worktree=[record("refs/a", "1"), oid("refs/b", "2")], packed=[oid("refs/a", "3"), PACKED_ERROR])
    t.ask("list 5", "refused 6 at 0 0 1", "refused 7 at 0 0 2", "refused 6 at 1 0 2",
          "ref 'refs/b' object #2 ~ at 2 0 2",
          "ended at 2 0 2")


def write_error_alone(t):
    t.note("'Each error is handed out, its entry consumed, and the listing goes on': errors alone in each region")
    t.snapshot(worktree=[WALK_ERROR, WALK_ERROR])
    t.ask("list 4", "refused 7 at 1 0 0", "refused 7 at 2 0 0", "ended at 2 0 0", "ended at 2 0 0")
    t.snapshot(common=[WALK_ERROR, hurt(WALK_ERROR)])
    t.ask("list 3", "refused 7 at 0 1 0", "refused 6 at 0 2 0", "ended at 0 2 0")
    t.snapshot(packed=[hurt(PACKED_ERROR), PACKED_ERROR])
    t.ask("list 3", "refused 6 at 0 0 1", "refused 7 at 0 0 2", "ended at 0 0 2")
    t.note("a damaged block is an error, whatever name it seems to bear: a private one in common, one outside refs/")
    t.snapshot(worktree=[hurt(oid("HEAD", "1"))], common=[hurt(oid("refs/bisect/x", "2"))])
    t.ask("list 3", "refused 6 at 0 1 0", "refused 6 at 1 1 0", "ended at 1 1 0")
    t.note("an error entry of common behind private blocks is seen at once; taking it puts the position past them all")
    t.snapshot(worktree=[oid("refs/heads/a", "1")],
               common=[oid("refs/bisect/a", "2"), oid("refs/bisect/b", "3"), WALK_ERROR, oid("refs/heads/b", "4")])
    t.ask("list 4", "refused 7 at 0 3 0", "ref 'refs/heads/a' object #1 ~ at 1 3 0",
          "ref 'refs/heads/b' object #4 ~ at 1 4 0",
          "ended at 1 4 0")
    t.note("the same behind names outside refs/ and malformed ones, in worktree")
    t.snapshot(worktree=[oid("HEAD", "1"), oid("refs/a..b", "2"), WALK_ERROR], packed=[record("refs/heads/b", "4")])
    t.ask("list 3", "refused 7 at 3 0 0", "ref 'refs/heads/b' object #4 ~ at 3 0 1", "ended at 3 0 1")


def write_refused_entries(t):
    t.note("9 to 12: 'number; state moved on'")
    t.snapshot(worktree=[unreadable("refs/a"), file("refs/b", "junk"), file("refs/c", "ref: c"),
                         ref("refs/d", "refs/heads/.invalid"), oid("refs/e", "1")])
    t.ask("list 6", "refused 9 at 1 0 0", "refused 10 at 2 0 0", "refused 11 at 3 0 0", "refused 12 at 4 0 0",
          "ref 'refs/e' object #1 ~ at 5 0 0", "ended at 5 0 0")
    t.note("the same from common")
    t.snapshot(common=[unreadable("refs/a"), file("refs/b", ""), file("refs/c", "ref: "),
                       ref("refs/d", "refs/heads/.invalid")])
    t.ask("list 5", "refused 9 at 0 1 0", "refused 10 at 0 2 0", "refused 11 at 0 3 0", "refused 12 at 0 4 0",
          "ended at 0 4 0")
    t.note("they take part in the order by name and consume equal names")
    t.snapshot(worktree=[unreadable("refs/b"), file("refs/d", "junk")], common=[oid("refs/b", "1"), oid("refs/c", "2")],
               packed=[record("refs/a", "3"), record("refs/b", "4"), record("refs/d", "5")])
    t.ask("list 5", "ref 'refs/a' object #3 ~ at 0 0 1", "refused 9 at 1 1 2", "ref 'refs/c' object #2 ~ at 1 2 2",
          "refused 10 at 2 2 3", "ended at 2 2 3")
    t.note("one of a lower region is consumed unseen")
    t.snapshot(worktree=[oid("refs/a", "1")], common=[unreadable("refs/a"), file("refs/b", "ref: x")],
               packed=[record("refs/b", "2")])
    t.ask("list 3", "ref 'refs/a' object #1 ~ at 1 1 0", "refused 11 at 1 2 1", "ended at 1 2 1")
    t.note("outside refs/, or malformed, they are passed over")
    t.snapshot(worktree=[unreadable("HEAD"), file("refs/a..b", "junk")])
    t.ask("list 1", "ended at 0 0 0")


def write_disorder(t):
    t.note("a listing does not check the order of names: 8 is not for it")
    t.snapshot(worktree=[oid("refs/b", "1"), oid("refs/a", "2"), oid("refs/a", "3")], packed=[record("refs/a", "4")])
    t.ask("fit", "refused 8 worktree 1")
    t.ask("list 5", "ref 'refs/a' object #4 ~ at 0 0 1", "ref 'refs/b' object #1 ~ at 1 0 1",
          "ref 'refs/a' object #2 ~ at 2 0 1",
          "ref 'refs/a' object #3 ~ at 3 0 1", "ended at 3 0 1")
    t.note("equal names in one region: only what waits is compared")
    t.snapshot(common=[oid("refs/a", "1"), oid("refs/a", "2")], packed=[record("refs/a", "3"), record("refs/a", "4"),
                                                                       record("refs/a", "5")])
    t.ask("list 4", "ref 'refs/a' object #1 ~ at 0 1 1", "ref 'refs/a' object #2 ~ at 0 2 2",
          "ref 'refs/a' object #5 ~ at 0 2 3",
          "ended at 0 2 3")
