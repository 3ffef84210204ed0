"""Document 01, decode.rs and parse.rs: what a loose file's content says."""

FORTY = "0123456789abcdef0123456789abcdef01234567"
UPPER = FORTY.upper()

# (what it stands for, content, answer)
CONTENTS = [
    ("`ref:  HEAD` then CR LF: symbolic `HEAD`", "ref:  HEAD\\r\\n", "symbolic 'HEAD'"),
    ("one space and LF", "ref: refs/heads/a\\n", "symbolic 'refs/heads/a'"),
    ("many spaces", "ref:      refs/heads/a", "symbolic 'refs/heads/a'"),
    ("'A target ends before the first NUL, CR or LF': NUL", "ref: HEAD\\x00junk", "symbolic 'HEAD'"),
    ("the same: CR", "ref: HEAD\\rjunk", "symbolic 'HEAD'"),
    ("the same: LF", "ref: HEAD\\njunk", "symbolic 'HEAD'"),
    ("the same: the first of them", "ref: HEAD\\x00a\\nb\\rc", "symbolic 'HEAD'"),
    ("the same: none of them", "ref: HEAD", "symbolic 'HEAD'"),
    ("`ref:HEAD`: refused 10", "ref:HEAD", "refused 10"),
    ("a tab is no space", "ref:\\tHEAD", "refused 10"),
    ("a tab behind the space belongs to the target", "ref: \\tHEAD", "refused 11"),
    ("`ref:` alone", "ref:", "refused 10"),
    ("`ref` alone", "ref", "refused 10"),
    ("capital letters", "Ref: HEAD", "refused 10"),
    ("a space in front", " ref: HEAD", "refused 10"),
    ("`ref: ` and nothing: 11", "ref: ", "refused 11"),
    ("`ref: ` and spaces", "ref:     ", "refused 11"),
    ("`ref: ` and LF", "ref: \\n", "refused 11"),
    ("`ref: ` and NUL, then a name", "ref: \\x00HEAD", "refused 11"),
    ("a target in the next line is none", "ref: \\nHEAD", "refused 11"),
    ("`ref: refs/heads/.invalid`: 12", "ref: refs/heads/.invalid", "refused 12"),
    ("the same with LF and spaces", "ref:   refs/heads/.invalid\\n", "refused 12"),
    ("the same with junk behind NUL", "ref: refs/heads/.invalid\\x00x", "refused 12"),
    ("only just that name", "ref: refs/heads/.invalidx", "refused 11"),
    ("the same", "ref: refs/heads/.invali", "refused 11"),
    ("a blank behind the target is part of it", "ref: refs/heads/.invalid \\n", "refused 11"),
    ("the same", "ref: HEAD \\n", "refused 11"),
    ("'symbolic targets must be complete': one small component", "ref: main", "refused 11"),
    ("the same: malformed", "ref: refs/heads/a..b", "refused 11"),
    ("the same: `@`", "ref: @", "refused 11"),
    ("the same: a pseudo name", "ref: MERGE_HEAD", "symbolic 'MERGE_HEAD'"),
    ("the same: any slash does", "ref: a/b", "symbolic 'a/b'"),
    ("the same: trailing slash", "ref: refs/heads/\\n", "refused 11"),
    ("the same: bytes from 128 on", "ref: refs/heads/\\xff", "symbolic 'refs/heads/\\xff'"),
    ("forty digits then `z`: an id", FORTY + "z", f"object {FORTY}"),
    ("forty digits then `a`: refused 10", FORTY + "a", "refused 10"),
    ("forty digits then `a` and another byte: refused 10", FORTY + "az", "refused 10"),
    ("the same: LF", FORTY + "a\\n", "refused 10"),
    ("forty digits then a capital digit: refused 10", FORTY + "F", "refused 10"),
    ("forty digits then `0`: refused 10", FORTY + "0", "refused 10"),
    ("forty digits then `g`, the letter behind the digits: an id", FORTY + "g", f"object {FORTY}"),
    ("the same: G, `:`, `/`, `@` and backquote", FORTY + "G", f"object {FORTY}"),
    ("the same", FORTY + ":", f"object {FORTY}"),
    ("the same", FORTY + "/", f"object {FORTY}"),
    ("the same", FORTY + "@", f"object {FORTY}"),
    ("the same", FORTY + "`", f"object {FORTY}"),
    ("forty digits and nothing", FORTY, f"object {FORTY}"),
    ("forty digits and LF", FORTY + "\\n", f"object {FORTY}"),
    ("forty digits and anything behind one other byte", FORTY + " 0123", f"object {FORTY}"),
    ("'Upper and lower case digits count; an answered [..] id is in lower case'", UPPER + "\\n", f"object {FORTY}"),
    ("both cases mixed", UPPER[:20] + FORTY[20:], f"object {FORTY}"),
    ("'39 digits are too few'", FORTY[:39], "refused 10"),
    ("39 digits and LF", FORTY[:39] + "\\n", "refused 10"),
    ("39 digits and `g`", FORTY[:39] + "g", "refused 10"),
    ("80 digits are no id", FORTY + FORTY, "refused 10"),
    ("a space in front of the digits", " " + FORTY, "refused 10"),
    ("no digit in the first place", "g" + FORTY[1:], "refused 10"),
    ("no digit in the middle", FORTY[:20] + "x" + FORTY[21:], "refused 10"),
    ("nothing at all", "", "refused 10"),
    ("LF alone", "\\n", "refused 10"),
    ("NUL bytes", "\\x00" * 40, "refused 10"),
]


def write(t):
    for about, content, answer in CONTENTS:
        t.note("decode.rs: " + about)
        t.ask(f"decode '{content}'", answer)
    t.note("parse.rs: each byte in place of the fortieth digit, and behind forty digits")
    for byte in (0x2f, 0x30, 0x39, 0x3a, 0x40, 0x41, 0x46, 0x47, 0x60, 0x61, 0x66, 0x67, 0x80, 0xff):
        digit = chr(byte) in "0123456789ABCDEFabcdef"
        t.ask(f"decode '{FORTY[:39]}\\x{byte:02x}'",
              f"object {FORTY[:39]}{chr(byte).lower()}" if digit else "refused 10")
        t.ask(f"decode '{FORTY}\\x{byte:02x}'", "refused 10" if digit else f"object {FORTY}")
    t.note("contents of 249 and 250 bytes: targets of 244 and 245; 251 bytes are no content")
    for length in (249, 250):
        target = "refs/" + "a" * (length - 10)
        t.ask(f"decode 'ref: {target}'", f"symbolic '{target}'")
        t.ask(f"decode 'ref: {target[:-1]}.'", "refused 11")
        t.ask(f"decode '{FORTY}{'z' * (length - 40)}'", f"object {FORTY}")
        t.ask(f"decode '{'z' * length}'", "refused 10")
        t.ask(f"decode 'ref: {' ' * (length - 9)}HEAD'", "symbolic 'HEAD'")
    t.ask(f"decode 'ref: refs/{'a' * 241}'", "?")
    t.ask(f"decode '{FORTY}{'z' * 211}'", "?")
