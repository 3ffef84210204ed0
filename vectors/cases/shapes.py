"""The format itself (docs/VECTORS.md): lines without a shape, numbers, long byte strings, comments and empty lines."""

from table import oid, record

# (what it stands for, lines that are answered `?`)
NO_SHAPE = [
    ("an unknown keyword", [b"bogus", b"bogus 61", b"?", b"reflist", b"fits", b"fi"]),
    ("keywords are case-sensitive", [b"Fit", b"FIT", b"Find 61", b"block Loose 00"]),
    ("a space in front, behind, or two of them: an empty field is no field",
     [b" fit", b"fit ", b"find 61 ", b"find  61", b" find 61", b"find 61  ", b" ", b"  ", b"order 61  62"]),
    ("CR and tab are ordinary bytes", [b"fit\r", b"\r", b"find 61\r", b"\t", b"find\t61", b"fit\t", b"list 1\r"]),
    ("NUL and bytes from 128 on", [b"\0", b"fit\0", b"find 61\0", b"\xff", b"find \xff", b"f\xc3\xaft"]),
    ("missing fields", [b"find", b"follow", b"wellformed", b"complete", b"pseudo", b"order", b"order 61", b"category",
                        b"fullname", b"fullname Tag", b"fullname Tag ~", b"expand", b"strip", b"strip 61", b"decode",
                        b"block",
                        b"list", b"step", b"step 1", b"step 1 2", b"worktree", b"common", b"packed", b"namespace"]),
    ("fields too many", [b"fit 1", b"find 61 62", b"follow 61 62", b"wellformed 61 62", b"order 61 62 63",
                         b"category 61 62",
                         b"fullname Tag ~ 61 62", b"expand 61 62", b"strip 61 62 63", b"decode 61 62", b"list 1 2",
                         b"step 1 2 3 4", b"worktree - -", b"common ~ ~", b"namespace 61 62"]),
    ("an odd number of digits", [b"find 6", b"find 616", b"worktree 0", b"namespace 6e6", b"fullname Tag ~ 6"]),
    ("upper-case hexadecimal digits", [b"find 6A", b"find 4F", b"find 6a6B", b"namespace 6E", b"category FF"]),
    ("no hexadecimal digits", [b"find 6g", b"find zz", b"find 0x61", b"find -61", b"find 61-", b"find --", b"find 'a'",
                               b"find +1", b"find 6/", b"find 6:", b"find 6`", b"find 6@"]),
    ("absent where it may not be", [b"find ~", b"follow ~", b"wellformed ~", b"order ~ 61", b"order 61 ~",
                                    b"category ~",
                                    b"expand ~", b"strip ~ 61", b"strip 61 ~", b"decode ~", b"worktree ~",
                                    b"block loose ~",
                                    b"fullname Tag ~ ~", b"find ~~", b"common ~61"]),
    ("no category", [b"fullname tag ~ 61", b"fullname TAG ~ 61", b"fullname Tags ~ 61", b"fullname none ~ 61",
                     b"fullname Linked 77 61", b"fullname - ~ 61", b"fullname 61 ~ 61"]),
    ("the linked categories need a worktree name",
     [b"fullname LinkedRef ~ 61", b"fullname LinkedPseudoRef ~ 48454144"]),
    ("a field that is passed over must still have its shape",
     [b"fullname Tag zz 61", b"fullname Tag 6 61", b"fullname Tag 6A 61"]),
    ("no numbers", [b"list -", b"list ~", b"list -1", b"list +1", b"list 1a", b"list 0x1", b"list 1.0", b"list one",
                    b"step 0 0 -1", b"step a 0 0", b"step 0 ~ 0", b"step 1, 2 3"]),
    ("numbers over 2^64 - 1", [b"list 18446744073709551616", b"step 18446744073709551616 0 0",
                               b"step 0 18446744073709551616 0",
                               b"step 0 0 18446744073709551616", b"step 0 0 18446744073709551620",
                               b"step 0 0 18446744073709551700", b"step 0 0 36893488147419103232",
                               b"step 0 0 99999999999999999999", b"step 0 0 184467440737095516150",
                               b"step 0 0 340282366920938463463374607431768211456", b"list 00018446744073709551616"]),
    ("a comment begins at the line's first byte", [b" # fit", b"fit # x", b"fit #"]),
    ("two questions in one line", [b"fit fit", b"find 61 find 61"]),
]


def write(t):
    t.note("the format: lines without a shape are answered `?`, in each case one line")
    t.snapshot()
    for about, lines in NO_SHAPE:
        t.note("the format: " + about)
        for line in lines:
            t.raw(line, "?")
    write_comments(t)
    write_unchanged(t)
    write_numbers(t)
    write_strings(t)
    write_long(t)


def write_comments(t):
    t.note("the format: 'Empty lines and lines that begin with `#` are passed over', whatever stands in them")
    for line in (b"", b"", b"#", b"#fit", b"##", b"# \r", b"#\0\xff", b"# find 61 ", b""):
        t.raw(line)
    t.ask("fit", "fit")


def write_unchanged(t):
    t.note("the format: a line without a shape 'changes nothing'")
    t.snapshot(worktree=[oid("HEAD", "1")], common=[], packed=[record("refs/namespaces/n/refs/heads/a", "2")],
               namespace="n")
    for line in (b"worktree", b"worktree ~", b"worktree 0", b"worktree - ", b"common zz", b"common ~ ", b"packed  ~",
                 b"packed -\r",
                 b"namespace 6N", b"namespace", b"namespace ~ ~", b"Namespace ~"):
        t.raw(line, "?")
    t.ask("find 'a'", "found 'refs/heads/a' object #2 ~")
    t.ask("list 2", "ref 'refs/heads/a' object #2 ~ at 0 0 1", "ended at 0 0 1")
    t.note("the format: setting one thing leaves the others")
    t.set("namespace", None)
    t.ask("find 'HEAD'", "found 'HEAD' object #1 ~")
    t.set("common", None)
    t.ask("find 'main-worktree/HEAD'", "found 'main-worktree/HEAD' object #1 ~")
    t.set("packed", None)
    t.ask("list 1", "ended at 0 0 0")
    t.note("the format: questions change nothing; the same question has the same answer")
    t.ask("find 'HEAD'", "found 'HEAD' object #1 ~")
    t.ask("find 'HEAD'", "found 'HEAD' object #1 ~")


def write_numbers(t):
    t.note("the format: leading zeros, and the largest number")
    t.ask("list 00")
    t.ask("list 0000000000000000000000000000000000000001", "ended at 0 0 0")
    t.ask("step 007 000 0", "ended at 7 0 0")
    t.ask("step 18446744073709551615 00018446744073709551615 18446744073709551614",
          "ended at 18446744073709551615 18446744073709551615 18446744073709551614")
    t.ask(f"step {'0' * 200}9 10 18446744073709551609", "ended at 9 10 18446744073709551609")


def write_strings(t):
    t.note("the format: `-` is the empty string, in every place of a byte string")
    t.raw(b"wellformed -", "no")
    t.raw(b"order - -", "equal")
    t.raw(b"order - 00", "less")
    t.raw(b"strip - -", "name -")
    t.raw(b"strip 61 61", "name -")
    t.raw(b"category -", "PseudoRef ~ -")
    t.raw(b"decode -", "refused 10")
    t.raw(b"find -", "refused 4")
    t.raw(b"expand -", "refused 4")
    t.raw(b"fullname Tag - 61", "name 726566732f746167732f61")
    t.raw(b"fullname PseudoRef ~ -", "refused 4")
    t.note("the format: all 256 bytes, digits 0 to 9 and a to f")
    every = bytes(range(256))
    t.raw(b"strip - " + every.hex().encode(), "name " + every.hex())


def write_long(t):
    t.note("the format: an answer of 5,000 bytes")
    t.raw(b"strip - " + b"61" * 5000, "name " + "61" * 5000)
    t.note("the format: two byte strings of 20,480 and 20,481 bytes in one line")
    t.raw(b"strip " + b"61" * 20480 + b" " + b"61" * 20481, "name 61")
    t.note("the format: 20,482 bytes have no shape")
    t.raw(b"pseudo " + b"41" * 20482, "?")
    ends = ("x", "xxx", "y", "zzzzzzzzz")
    names = sorted(f"refs/heads/{letter}{end}" for letter in "abcdefghij" for end in ends)
    region = b"".join(record(name, name[11]) if name[11] < "g" else record(name, "0", "9") for name in names)
    t.note("the format: a region of 40 blocks and one byte; it is 1")
    t.snapshot(packed=region + b"\0")
    t.ask("fit", "refused 1")
    t.ask("find 'ax'", "refused 1")
    t.ask("list 3", "refused 1")
    t.note("40 blocks: each name is found, those between, before and behind are not there")
    t.snapshot(packed=region)
    t.ask("fit", "fit")
    for name in names:
        ids = "#" + name[11] + " ~" if name[11] < "g" else "#0 #9"
        t.ask(f"find '{name[11:]}'", f"found '{name}' object {ids}")
        t.ask(f"find '{name}w'", "absent")
    t.ask("find 'a'", "absent")
    t.ask("find 'k'", "absent")
    t.ask("step 0 0 38", "ref 'refs/heads/jy' object #0 #9 at 0 0 39")
    t.ask("step 0 0 39", "ref 'refs/heads/jzzzzzzzzz' object #0 #9 at 0 0 40")
    t.ask("step 0 0 40", "ended at 0 0 40")
