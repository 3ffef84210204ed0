"""Document 01, 'Names', and name.rs: well-formed, complete and pseudo names, and their order."""

# (what it stands for, name, well formed, complete)
RULES = [
    ("'not empty'", "", "no", "no"),
    ("a name of one component is well formed, and not complete", "a", "yes", "no"),
    ("'holding a slash': complete", "a/b", "yes", "yes"),
    ("'made only of A to Z and underscore': complete", "HEAD", "yes", "yes"),
    ("the same", "A_B", "yes", "yes"),
    ("the same: underscore alone", "_", "yes", "yes"),
    ("a small letter: not complete", "HEADa", "yes", "no"),
    ("a digit: not complete", "HEAD1", "yes", "no"),
    ("a dash: not complete", "A-B", "yes", "no"),
    ("`@`, the byte below A: not complete", "A@", "yes", "no"),
    ("'no component begins with a dot': the first", ".a/b", "no", "no"),
    ("the same: a later one", "a/.b", "no", "no"),
    ("the same: the only one", ".a", "no", "no"),
    ("a dot within a component is well formed", "a.b/c.d", "yes", "yes"),
    ("'or ends `.lock`': the last component", "a/b.lock", "no", "no"),
    ("the same: an earlier one", "a.lock/b", "no", "no"),
    ("the same: the only one", "a.lock", "no", "no"),
    ("a component `.lock` begins with a dot, too", "a/.lock", "no", "no"),
    ("a component `lock` has no dot", "a/lock", "yes", "yes"),
    ("`.lock` is small letters", "a/b.LOCK", "yes", "yes"),
    ("`.lock` not at the end of the component", "a.locks/b.lockx", "yes", "yes"),
    ("`.lock` and another ending", "a.lock.x", "yes", "no"),
    ("'no `..`'", "a..b", "no", "no"),
    ("the same: across nothing else, between components", "a/b..c/d", "no", "no"),
    ("dots apart are well formed", "a.b.c", "yes", "no"),
    ("'no leading [..] slash'", "/a", "no", "no"),
    ("'no [..] trailing [..] slash'", "a/", "no", "no"),
    ("'no [..] doubled slash'", "a//b", "no", "no"),
    ("a slash alone", "/", "no", "no"),
    ("'no final dot'", "a/b.", "no", "no"),
    ("a component that is not the last may end in a dot", "a./b", "yes", "yes"),
    ("the same with one component", "a.", "no", "no"),
    ("a dot alone", ".", "no", "no"),
    ("'no `@{`'", "a@{b", "no", "no"),
    ("the same: at the end", "a/b@{", "no", "no"),
    ("the same: at the front", "@{a", "no", "no"),
    ("`@` and `{` apart are well formed", "a@b{c", "yes", "no"),
    ("`{@` is well formed", "a{@b", "yes", "no"),
    ("'not `@` alone'", "@", "no", "no"),
    ("`@` as a component is well formed", "a/@", "yes", "yes"),
    ("the same: first", "@/a", "yes", "yes"),
    ("`@@` is well formed", "@@", "yes", "no"),
    ("bytes from 128 on are well formed", "\\x80\\xc3\\xa4\\xff", "yes", "no"),
    ("`refs/heads/.invalid`, the target of 12, is malformed", "refs/heads/.invalid", "no", "no"),
]

FORBIDDEN = list(range(32)) + [127] + [ord(character) for character in " ~^:?*[\\"]

PSEUDO = [
    ("true of the empty name", "", "yes"),
    ("all bytes are A to Z or underscore", "FETCH_HEAD", "yes"),
    ("A and Z themselves", "AZ", "yes"),
    ("the byte below A", "A@", "no"),
    ("the byte above Z", "A[", "no"),
    ("the byte above underscore", "A`", "no"),
    ("the byte below underscore", "A^", "no"),
    ("a small letter", "Head", "no"),
    ("a slash", "A/B", "no"),
    ("a dash", "A-B", "no"),
    ("takes malformed names too: NUL", "A\\x00", "no"),
]

ORDER = [
    ("by bytes", "a", "b", "less"),
    ("the other way round", "b", "a", "greater"),
    ("equal", "a/b", "a/b", "equal"),
    ("both empty", "", "", "equal"),
    ("a proper beginning first", "a", "a/b", "less"),
    ("the same, the other way round", "a/b", "a", "greater"),
    ("the empty name first", "", "\\x00", "less"),
    ("a slash is above a dash and a dot: no order by components", "a-b", "a/b", "less"),
    ("the same", "a.b", "a/b", "less"),
    ("the same", "a/b", "a0b", "less"),
    ("bytes count without a sign", "\\x7f", "\\x80", "less"),
    ("the same", "\\xff", "\\x00", "greater"),
    ("capital letters first", "refs/heads/Z", "refs/heads/a", "less"),
    ("the first difference decides, not the length", "ab", "b", "less"),
]


def write(t):
    for about, name, well, whole in RULES:
        t.note("Names, well formed and complete: " + about)
        t.ask(f"wellformed '{name}'", well)
        t.ask(f"complete '{name}'", whole)
    t.note("Names: 'no byte below 32, no 127, space, `~ ^ : ? * [` or backslash', each within a component")
    for byte in FORBIDDEN:
        t.ask(f"wellformed 'a\\x{byte:02x}b'", "no")
        t.ask(f"complete 'a/\\x{byte:02x}b'", "no")
    t.note("Names: each other byte alone, between letters (slash and dot among them)")
    for byte in range(256):
        if byte not in FORBIDDEN:
            t.ask(f"wellformed 'a\\x{byte:02x}b'", "yes")
    t.note("Names: each forbidden byte as the first and as the last of a name")
    for byte in FORBIDDEN:
        t.ask(f"wellformed '\\x{byte:02x}a'", "no")
        t.ask(f"wellformed 'a\\x{byte:02x}'", "no")
    for about, name, answer in PSEUDO:
        t.note("name.rs, `is_pseudo_ref`: " + about)
        t.ask(f"pseudo '{name}'", answer)
    t.note("name.rs: each byte alone; A to Z and underscore are pseudo")
    for byte in range(256):
        t.ask(f"pseudo '\\x{byte:02x}'", "yes" if chr(byte) in "ABCDEFGHIJKLMNOPQRSTUVWXYZ_" else "no")
    for about, one, other, answer in ORDER:
        t.note("Names, order: " + about)
        t.ask(f"order '{one}' '{other}'", answer)
    t.note("'Facts about a name hold for every length': no 3 here")
    for length in (249, 250, 251, 600):
        t.ask(f"wellformed '{'a' * length}'", "yes")
        t.ask(f"complete '{'a' * length}'", "no")
        t.ask(f"complete '{'A' * length}'", "yes")
        t.ask(f"pseudo '{'A' * length}'", "yes")
        t.ask(f"wellformed '{'a' * (length - 1)}.'", "no")
        t.ask(f"pseudo '{'A' * (length - 1)}a'", "no")
        t.ask(f"order '{'a' * length}' '{'a' * (length + 1)}'", "less")
        t.ask(f"order '{'a' * length}b' '{'a' * length}a'", "greater")
