"""Document 01, 'Blocks': the layout, and each clause of damage alone."""

from table import PACKED_ERROR, WALK_ERROR, block, changed, file, hurt, oid, record, summed, unreadable

FORTY = b"0123456789abcdef0123456789abcdef01234567"


def ask(t, about, region, data, answer):
    t.note("Blocks: " + about)
    t.ask(f"block {region} {data.hex()}", answer)


def write(t):
    write_sound(t)
    write_lengths(t)
    write_zero_bytes(t)
    write_sums(t)
    write_kinds(t)
    write_records(t)
    write_not_blocks(t)


def write_sound(t):
    ask(t, "kind 1, loose file", "loose", file("refs/heads/a", "hello"), "loose 'refs/heads/a' 'hello'")
    ask(t, "kind 1 with an id: the content is given as it stands", "loose", oid("a", "A"),
        "loose 'a' '" + "A" * 40 + "\\n'")
    ask(t, "kind 2, loose file that could not be read", "loose", unreadable("refs/heads/a"),
        "unreadable 'refs/heads/a'")
    ask(t, "kind 3, walk error", "loose", WALK_ERROR, "error")
    ask(t, "kind 4, packed record: 40 digits (target)", "packed", record("refs/heads/a", "1"),
        "packed 'refs/heads/a' #1 ~")
    ask(t, "kind 4: 80 digits (target, then peeled id)", "packed", record("refs/tags/v", "1", "2"),
        "packed 'refs/tags/v' #1 #2")
    ask(t, "kind 5, packed error", "packed", PACKED_ERROR, "error")
    ask(t, "a loose file may have the empty name", "loose", file("", "x"), "loose '' 'x'")
    ask(t, "the same: kind 2", "loose", unreadable(""), "unreadable ''")
    ask(t, "both empty", "loose", file("", ""), "loose '' ''")
    ask(t, "a loose file may have a malformed name", "loose", file("a..b//\x00", ""), "loose 'a..b//\\x00' ''")
    ask(t, "the same: kind 2", "loose", unreadable(".x"), "unreadable '.x'")
    ask(t, "a record need not have a complete name", "packed", record("a", "1"), "packed 'a' #1 ~")


def write_lengths(t):
    for length in (249, 250):
        name = "a" * length
        ask(t, f"name length {length}", "loose", file(name, "x"), f"loose '{name}' 'x'")
        ask(t, f"name length {length}, packed", "packed", record(name, "1"), f"packed '{name}' #1 ~")
        ask(t, f"content length {length}", "loose", file("a", "x" * length), f"loose 'a' '{'x' * length}'")
    ask(t, "name and content of 250", "loose", file("a" * 250, "x" * 250), f"loose '{'a' * 250}' '{'x' * 250}'")
    empty = file("", "")
    for length in (251, 255):
        ask(t, f"'name length, at most 250': {length}, all of it zero", "loose", changed(empty, (1, length)), "damaged")
    full = file("a" * 250, "")
    ask(t, "the same: 251, the last byte zero", "loose", changed(full, (1, 251)), "damaged")
    ask(t, "'content length, at most 250': 251, all of it zero", "loose", changed(empty, (2, 251)), "damaged")
    ask(t, "the same: 251, the last byte zero", "loose", changed(file("", "x" * 250), (2, 251)), "damaged")
    ask(t, "'Bytes 2-3, low first': 256", "loose", changed(empty, (3, 1)), "damaged")
    ask(t, "the same: 5 + 256, though the low byte fits", "loose", changed(file("a", "hello"), (3, 1)), "damaged")
    ask(t, "the same: 255 times 256", "loose", changed(empty, (3, 255)), "damaged")
    ask(t, "a name length that is too small leaves an unused byte", "loose", changed(file("abc", ""), (1, 2)),
        "damaged")
    ask(t, "a content length that is too small leaves an unused byte", "loose", changed(file("a", "abc"), (2, 2)),
        "damaged")
    ask(t, "a name length that is too large takes in zero bytes", "loose", changed(file("abc", ""), (1, 4)),
        "loose 'abc\\x00' ''")
    ask(t, "the same of a record: NUL is malformed", "packed", changed(record("abc", "1"), (1, 4)), "damaged")


def write_zero_bytes(t):
    sound, packed = file("abc", "xyz"), record("refs/a", "1")
    for position in (4, 5, 6, 7):
        ask(t, f"'Bytes 4-7: zero': byte {position}", "loose", changed(sound, (position, 1)), "damaged")
        ask(t, f"the same, packed: byte {position}", "packed", changed(packed, (position, 255)), "damaged")
    for position in (11, 12, 257):
        ask(t, f"'unused bytes zero': byte {position} behind the name", "loose", changed(sound, (position, 1)),
            "damaged")
    for position in (261, 262, 507):
        ask(t, f"'unused bytes zero': byte {position} behind the content", "loose", changed(sound, (position, 1)),
            "damaged")
    ask(t, "byte 257 is the last of a name of 250 bytes: nothing is unused", "loose",
        changed(file("a" * 250, ""), (257, 98)), "loose '" + "a" * 249 + "b' ''")
    ask(t, "byte 257 is unused behind a name of 249 bytes", "loose", changed(file("a" * 249, ""), (257, 98)), "damaged")
    ask(t, "byte 507 is the last of a content of 250 bytes", "loose",
        changed(file("", "x" * 250), (507, 98)), "loose '' '" + "x" * 249 + "b'")
    ask(t, "byte 507 is unused behind a content of 249 bytes", "loose", changed(file("", "x" * 249), (507, 98)),
        "damaged")
    ask(t, "a walk error with an unused byte set", "loose", changed(WALK_ERROR, (8, 1)), "damaged")


def write_sums(t):
    sound = file("refs/heads/a", "hello")
    for position in (508, 509, 510, 511):
        ask(t, f"the sum is wrong in byte {position}", "loose",
            changed(sound, (position, sound[position] ^ 1), sum_too=False), "damaged")
    ask(t, "a byte changed under an old sum", "loose", changed(sound, (8, 115), sum_too=False), "damaged")
    swapped = changed(sound, (8, sound[9]), (9, sound[8]), sum_too=False)
    ask(t, "two bytes changed for each other: the position counts", "loose", swapped, "damaged")
    ask(t, "the sum without the '+ 1': taken as positions 0 to 507", "loose",
        sound[:508] + sum(p * b for p, b in enumerate(sound[:508])).to_bytes(4, "little"), "damaged")
    ask(t, "'low first': the sum written high first", "loose", sound[:508] + sound[508:][::-1], "damaged")
    ask(t, "'low first': all four bytes of a large sum", "loose", file("\xff" * 250, "\xff" * 250),
        f"loose '{chr(92)}xff{(chr(92) + 'xff') * 249}' '{(chr(92) + 'xff') * 250}'")
    ask(t, "a block of zeros: its sum is right, its kind is not", "loose", bytes(512), "damaged")
    ask(t, "the same, packed", "packed", bytes(512), "damaged")


def write_kinds(t):
    for kind in (0, 6, 255):
        for region in ("loose", "packed"):
            ask(t, f"kind {kind} suits no region", region, block(kind, b"refs/heads/a", FORTY), "damaged")
            ask(t, f"the same, without name and content: kind {kind}", region, block(kind), "damaged")
    ask(t, "'its kind does not suit the region': 1 in packed", "packed", block(1, b"refs/heads/a", FORTY), "damaged")
    ask(t, "the same: 2 in packed", "packed", unreadable("refs/heads/a"), "damaged")
    ask(t, "the same: 3 in packed", "packed", WALK_ERROR, "damaged")
    ask(t, "the same: 4 in a loose region", "loose", record("refs/heads/a", "1"), "damaged")
    ask(t, "the same: 5 in a loose region", "loose", PACKED_ERROR, "damaged")
    ask(t, "'kind 2 has content'", "loose", block(2, b"refs/heads/a", b"x"), "damaged")
    ask(t, "the same: a content of one zero byte", "loose", block(2, b"refs/heads/a", b"\0"), "damaged")
    for kind, region in ((3, "loose"), (5, "packed")):
        ask(t, f"'kinds 3 and 5 have a name or content': {kind}, a name", region, block(kind, b"a"), "damaged")
        ask(t, f"the same: {kind}, content", region, block(kind, b"", b"x"), "damaged")
        ask(t, f"the same: {kind}, a name of one zero byte", region, block(kind, b"\0"), "damaged")
        ask(t, f"the same: {kind}, content of one zero byte", region, block(kind, b"", b"\0"), "damaged")
        ask(t, f"an error block whose sum is wrong is damaged, no error: {kind}", region, hurt(block(kind)), "damaged")


def write_records(t):
    for about, name in (("empty", b""), ("two dots", b"a..b"), ("`@` alone", b"@"), ("trailing slash", b"refs/heads/"),
                        ("final dot", b"refs/heads/a."), (".lock", b"refs/heads/a.lock"), ("space", b"a b")):
        ask(t, f"'kind 4 has a malformed name': {about}", "packed", block(4, name, FORTY), "damaged")
    digits = FORTY + FORTY + b"0"
    for length in (0, 1, 39, 41, 79, 81):
        ask(t, f"'a content other than 40 digits (target) or 80': {length} digits", "packed",
            block(4, b"refs/a", digits[:length]), "damaged")
    ask(t, "40 digits", "packed", block(4, b"refs/a", FORTY), f"packed 'refs/a' {FORTY.decode()} ~")
    ask(t, "80 digits", "packed", block(4, b"refs/a", FORTY + b"f" * 40), f"packed 'refs/a' {FORTY.decode()} #f")
    ask(t, "upper case digits count; the ids are given in lower case", "packed",
        block(4, b"refs/a", FORTY.upper() + b"F" * 40), f"packed 'refs/a' {FORTY.decode()} #f")
    for position in (0, 20, 39, 40, 79):
        content = bytearray(FORTY + FORTY)
        content[position] = ord("g")
        ask(t, f"no digit at {position} of 80", "packed", block(4, b"refs/a", bytes(content)), "damaged")
        if position < 40:
            ask(t, f"no digit at {position} of 40", "packed", block(4, b"refs/a", bytes(content[:40])), "damaged")
    for byte in b"/:@G`g\0\x80":
        ask(t, f"the bytes next to the digits are none: {byte}", "packed",
            block(4, b"refs/a", FORTY[:39] + bytes([byte])),
            "damaged")
    ask(t, "39 digits and LF", "packed", block(4, b"refs/a", FORTY[:39] + b"\n"), "damaged")
    ask(t, "40 digits and LF", "packed", block(4, b"refs/a", FORTY + b"\n"), "damaged")
    ask(t, "a record is no symbolic reference", "packed", block(4, b"refs/a", b"ref: refs/heads/a" + b"a" * 23),
        "damaged")


def write_not_blocks(t):
    sound = summed(bytearray(file("a", "x")))
    t.note("the format: a block has exactly 512 bytes, else the line has no shape")
    t.ask(f"block loose {sound[:511].hex()}", "?")
    t.ask(f"block loose {sound.hex()}00", "?")
    t.ask("block loose -", "?")
    t.ask(f"block worktree {sound.hex()}", "?")
    t.ask(f"block common {sound.hex()}", "?")
    t.ask(f"block {sound.hex()}", "?")
    t.ask("block loose", "?")
