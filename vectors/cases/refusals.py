"""Document 01, the table of refusals: each number in each question that can give it, and which one counts."""

from table import PACKED_ERROR, WALK_ERROR, file, hurt, oid, record, ref, unreadable


def write(t):
    write_sizes(t)
    write_names(t)
    write_rows(t)
    write_blocks(t)
    write_order_of_names(t)
    write_first_block(t)
    write_blocks_after_rows(t)
    write_entries(t)


def write_sizes(t):
    for size in (1, 511, 513, 1023):
        t.note(f"1, 'size not a multiple of 512': a region of {size} bytes")
        for which in ("worktree", "common", "packed"):
            t.snapshot(**{which: bytes(size)})
            t.ask("fit", "refused 1")
            t.ask("find 'HEAD'", "refused 1")
            t.ask("follow 'HEAD'", "refused 1")
            t.ask("list 2", "refused 1")
            t.ask("step 0 0 0", "refused 1 at 0 0 0")
    t.note("a refused opening is told even where no step is asked for; a step leaves the positions as they are")
    t.ask("list 0", "refused 1")
    t.ask("step 3 18446744073709551615 1", "refused 1 at 3 18446744073709551615 1")
    t.note("questions about names alone do not look at the regions")
    t.ask("wellformed 'a'", "yes")
    t.ask("expand 'a'", "name 'refs/namespaces/a/'")
    t.note("a region of no bytes is no refusal")
    t.snapshot(common=b"", packed=b"")
    t.ask("fit", "fit")


def write_names(t):
    long = "a" * 251
    t.note("3, over 250 bytes: the name, or the namespace")
    t.snapshot(worktree=[oid("HEAD", "1")])
    t.ask(f"find '{long}'", "refused 3")
    t.ask(f"follow '{long}'", "refused 3")
    t.ask(f"find '{'a' * 250}'", "absent")
    t.ask(f"follow '{'a' * 250}'", "absent")
    t.ask(f"find '{'a' * 600}'", "refused 3")
    t.set("namespace", long.encode())
    t.ask("find 'HEAD'", "refused 3")
    t.ask("follow 'HEAD'", "refused 3")
    t.ask("list 1", "refused 3")
    t.ask("list 0", "refused 3")
    t.ask("step 0 0 0", "refused 3")
    t.note("`fit` asks for no name and no namespace")
    t.ask("fit", "fit")
    t.note("4, malformed: the name")
    t.set("namespace", None)
    for name in ("", "@", "a b", "a..b", "/a", "a/", ".a", "a.lock", "a@{b", "a.", "a\\x7f"):
        t.ask(f"find '{name}'", "refused 4")
        t.ask(f"follow '{name}'", "refused 4")
    t.note("a partial name need not be complete")
    t.ask("find 'a'", "absent")
    t.note("4, malformed: the namespace, the empty one among them")
    for namespace in ("", "@", "a//b", "a/", "a b"):
        t.set("namespace", namespace.encode())
        t.ask("find 'HEAD'", "refused 4")
        t.ask("follow 'HEAD'", "refused 4")
        t.ask("list 1", "refused 4")
        t.ask("step 0 0 0", "refused 4")
    t.note("5, 'expansion over 250': 251 bytes; 250 are none")
    t.set("namespace", b"n" * 234)
    t.ask("find 'HEAD'", "refused 5")
    t.ask("follow 'HEAD'", "refused 5")
    t.ask("list 1", "refused 5")
    t.ask("step 0 0 0", "refused 5")
    t.set("namespace", b"n" * 233)
    t.ask("find 'HEAD'", "absent")
    t.ask("list 1", "ended at 0 0 0")
    t.ask("step 0 0 0", "ended at 0 0 0")


def write_rows(t):
    t.note("'Of 1 to 5 the earliest row counts': 1 before all")
    t.snapshot(packed=bytes(5), namespace="n" * 251)
    t.ask(f"find '{'a' * 251}'", "refused 1")
    t.ask("find 'a..b'", "refused 1")
    t.ask("list 1", "refused 1")
    t.note("a refused namespace is answered in `step` as the opening would: 1 here too, and alone")
    t.ask("step 7 8 9", "refused 1")
    t.set("namespace", b"a..b")
    t.ask("follow 'a..b'", "refused 1")
    t.set("namespace", b"n" * 234)
    t.ask("list 1", "refused 1")
    t.ask("follow 'a'", "refused 1")
    t.note("1 of packed before 6 of worktree")
    t.snapshot(worktree=[hurt(oid("HEAD", "1"))], packed=bytes(5))
    t.ask("find 'HEAD'", "refused 1")
    t.ask("fit", "refused 1")
    t.note("3 before 4, of name and namespace in either way")
    t.snapshot(namespace="n" * 251)
    t.ask("find 'a..b'", "refused 3")
    t.ask("follow ''", "refused 3")
    t.set("namespace", b"a..b")
    t.ask(f"find '{'a' * 251}'", "refused 3")
    t.ask("find 'a'", "refused 4")
    t.note("one name both over 250 bytes and malformed is 3")
    t.set("namespace", None)
    t.ask(f"find '{'.' * 251}'", "refused 3")
    t.note("4 of the name before 5 of the namespace; 3 before 5")
    t.set("namespace", b"n" * 234)
    t.ask("find 'a..b'", "refused 4")
    t.ask(f"find '{'a' * 251}'", "refused 3")
    t.ask("find 'a'", "refused 5")
    t.note("4 of a namespace before its own 5")
    t.set("namespace", b"n" * 234 + b".")
    t.ask("find 'a'", "refused 4")
    t.ask("list 1", "refused 4")


def ask_blocks(t, answer):
    """Search, following and fitness give 6 to 8 alike, whatever is sought."""
    t.ask("fit", answer)
    t.ask("find 'refs/heads/a'", answer)
    t.ask("follow 'nobody'", answer)


def write_blocks(t):
    for which in ("worktree", "common", "packed"):
        make = record if which == "packed" else oid
        error = PACKED_ERROR if which == "packed" else WALK_ERROR
        sound = [make("refs/heads/a", "1"), make("refs/heads/b", "2")]
        t.note(f"6, 7 and 8 in {which}: at block 0, at a later one, with region and block")
        for region, answer in (
                ([hurt(sound[0])], f"refused 6 {which} 0"),
                (sound + [hurt(make("refs/heads/c", "3"))], f"refused 6 {which} 2"),
                ([error], f"refused 7 {which} 0"),
                (sound + [error], f"refused 7 {which} 2"),
                ([sound[0], sound[0]], f"refused 8 {which} 1"),
                (sound + [make("refs/heads/a", "3")], f"refused 8 {which} 2")):
            t.snapshot(**{which: region})
            ask_blocks(t, answer)
    t.note("8 is the listing's no refusal; 6 and 7 are entries there, without region and block")
    t.ask("list 4", "ref 'refs/heads/a' object #1 ~ at 0 0 1", "ref 'refs/heads/b' object #2 ~ at 0 0 2",
          "ref 'refs/heads/a' object #3 ~ at 0 0 3", "ended at 0 0 3")


def write_order_of_names(t):
    t.note("8, 'name not above the one before': by bytes; kinds 1 and 2 and malformed names alike")
    for names, answer in (
            (["", "a"], "fit"), (["", ""], "refused 8 worktree 1"), (["a", "a/b"], "fit"),
            (["a/b", "a-b"], "refused 8 worktree 1"), (["a-b", "a/b"], "fit"), (["a/b", "a"], "refused 8 worktree 1"),
            (["\x7f", "\x80", "\xff"], "fit"), (["\x80", "\x7f"], "refused 8 worktree 1"), (["Z", "a"], "fit"),
            (["a" * 249, "a" * 250], "fit"), (["a" * 250, "a" * 249], "refused 8 worktree 1"),
            (["b..", "b../c", "b.."], "refused 8 worktree 2")):
        t.snapshot(worktree=[oid(name, "1") for name in names])
        t.ask("fit", answer)
    t.snapshot(worktree=[oid("a", "1"), unreadable("a")])
    t.ask("fit", "refused 8 worktree 1")
    t.snapshot(worktree=[unreadable("b"), oid("a", "1")])
    t.ask("fit", "refused 8 worktree 1")
    t.note("names are compared within a region only; a directory of another name is fit")
    t.snapshot(worktree=[oid("b", "1")], common=[oid("a", "1"), oid("b", "2")],
               packed=[record("a", "1"), record("a/b", "2")])
    t.ask("fit", "fit")


def write_first_block(t):
    t.note("'Of 6 to 8 the first block counts, regions in the order worktree, common, packed'")
    good = [oid("refs/heads/a", "1"), oid("refs/heads/b", "2")]
    t.snapshot(worktree=good + [WALK_ERROR], common=[hurt(good[0])], packed=[PACKED_ERROR])
    ask_blocks(t, "refused 7 worktree 2")
    t.snapshot(worktree=good, common=[good[1], good[0]], packed=[hurt(PACKED_ERROR)])
    ask_blocks(t, "refused 8 common 1")
    t.snapshot(worktree=good, common=good, packed=[hurt(PACKED_ERROR)])
    ask_blocks(t, "refused 6 packed 0")
    t.note("within a region the first block, whatever its number")
    t.snapshot(worktree=[good[1], good[0], WALK_ERROR, hurt(good[0])])
    ask_blocks(t, "refused 8 worktree 1")
    t.snapshot(worktree=[WALK_ERROR, hurt(good[0])])
    ask_blocks(t, "refused 7 worktree 0")
    t.note("'at one block the lowest number': damaged and not above is 6, an error behind a name is 7")
    t.snapshot(worktree=[good[1], hurt(good[0])])
    ask_blocks(t, "refused 6 worktree 1")
    t.snapshot(worktree=[good[1], WALK_ERROR])
    ask_blocks(t, "refused 7 worktree 1")
    t.note("a kind that does not suit the region is 6")
    t.snapshot(common=[good[0], record("refs/heads/b", "1")])
    ask_blocks(t, "refused 6 common 1")
    t.snapshot(packed=[record("refs/heads/a", "1"), WALK_ERROR])
    ask_blocks(t, "refused 6 packed 1")
    t.note("6 to 8 cover regions that the search would not consult, and come before 'not there' and before 9 to 15")
    t.snapshot(worktree=[oid("HEAD", "1")], common=[], packed=[PACKED_ERROR])
    t.ask("find 'HEAD'", "refused 7 packed 0")
    t.ask("follow 'HEAD'", "refused 7 packed 0")
    t.snapshot(worktree=[ref("HEAD", "HEAD"), unreadable("JUNK")], common=[hurt(oid("a", "1"))])
    t.ask("find 'JUNK'", "refused 6 common 0")
    t.ask("follow 'HEAD'", "refused 6 common 0")
    t.note("a namespace changes nothing in it")
    t.set("namespace", b"n")
    ask_blocks(t, "refused 6 common 0")


def write_blocks_after_rows(t):
    t.note("6 to 8 come after 1 to 5")
    t.snapshot(worktree=[WALK_ERROR])
    t.ask("find 'a..b'", "refused 4")
    t.ask(f"follow '{'a' * 251}'", "refused 3")
    t.set("namespace", b"n" * 234)
    t.ask("find 'a'", "refused 5")
    t.ask("list 1", "refused 5")
    t.ask("fit", "refused 7 worktree 0")


def write_entries(t):
    t.note("9 to 12 in find, follow, list and step, from common; the same name in worktree is not what decides")
    t.snapshot(worktree=[oid("refs/heads/j", "1")],
               common=[file("refs/heads/i", "ref: x"), file("refs/heads/j", "junk"),
                       ref("refs/heads/r", "refs/heads/.invalid"),
                       unreadable("refs/heads/u")], packed=[record("refs/heads/u", "2")])
    for position, (name, number) in enumerate((("i", 11), ("j", 10), ("r", 12), ("u", 9))):
        t.ask(f"find '{name}'", f"refused {number}")
        t.ask(f"follow '{name}'", f"refused {number}")
        packed = 1 if name == "u" else 0
        t.ask(f"step 1 {position} 0", f"refused {number} at 1 {position + 1} {packed}")
    t.ask("list 5", "refused 11 at 0 1 0", "ref 'refs/heads/j' object #1 ~ at 1 2 0", "refused 12 at 1 3 0",
          "refused 9 at 1 4 1", "ended at 1 4 1")
    t.note("6 and 7 in a step, from each region")
    t.snapshot(worktree=[hurt(oid("a", "1")), WALK_ERROR], common=[hurt(oid("a", "1")), WALK_ERROR],
               packed=[hurt(record("a", "1")), PACKED_ERROR])
    t.ask("step 0 2 2", "refused 6 at 1 2 2")
    t.ask("step 1 2 2", "refused 7 at 2 2 2")
    t.ask("step 0 0 2", "refused 6 at 0 1 2")
    t.ask("step 0 1 2", "refused 7 at 0 2 2")
    t.ask("step 0 0 0", "refused 6 at 0 0 1")
    t.ask("step 0 0 1", "refused 7 at 0 0 2")
    t.ask("step 2 2 2", "ended at 2 2 2")
