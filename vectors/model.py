"""Document 01 as plain Python, written from the paper alone, and the vector format over it: a second `replay`.

    python3 vectors/model.py < questions > answers

Names, regions and contents are `bytes`; an absent region or namespace is None. Above each function stands the
sentence of document 01 that it is. docs/VECTORS.md describes the format.
"""

import re
import sys
from functools import lru_cache

LONGEST = 250
BLOCK = 512
MOST_BLOCKS = 4096
DIGITS = frozenset(b"0123456789abcdefABCDEF")


class Refused(Exception):
    """A refusal by its number; `values` are what the column "Gives" adds: region and block, or the last name."""

    def __init__(self, number, *values):
        super().__init__(number, *values)
        self.number = number
        self.values = values


# ---------------------------------------------------------------------------------------------------------- Names

# "no byte below 32, no 127, space, `~ ^ : ? * [` or backslash"
FORBIDDEN = frozenset(range(32)) | {127} | frozenset(b" ~^:?*[\\")


# "Well formed, from git-check-ref-format": the rules in the order of the paper.
def well_formed(name):
    components = name.split(b"/")
    return (
        name != b""
        and not any(part.startswith(b".") or part.endswith(b".lock") for part in components)
        and b".." not in name
        and not any(byte in FORBIDDEN for byte in name)
        and b"" not in components  # "no leading, trailing or doubled slash"
        and not name.endswith(b".")
        and b"@{" not in name
        and name != b"@"
    )


# "`is_pseudo_ref` is true of the empty name: all bytes are A to Z or underscore."
def is_pseudo(name):
    return all(65 <= byte <= 90 or byte == 95 for byte in name)


# "Complete: well formed and, besides, holding a slash or made only of A to Z and underscore"
def complete(name):
    return well_formed(name) and (b"/" in name or is_pseudo(name))


# "Order is by bytes, a proper beginning first."
def order(one, other):
    for a, b in zip(one, other):
        if a != b:
            return "less" if a < b else "greater"
    if len(one) == len(other):
        return "equal"
    return "less" if len(one) < len(other) else "greater"


# "A name is a directory of another if, with a slash added, it begins the other."
def is_directory_of(name, other):
    return other.startswith(name + b"/")


# "A partial name "looks full" if it begins `refs/`, `main-worktree/` or `worktrees/`, or is pseudo while pseudo
# names are considered."
def looks_full(name, consider_pseudo):
    return name.startswith((b"refs/", b"main-worktree/", b"worktrees/")) or (consider_pseudo and is_pseudo(name))


# ----------------------------------------------------------------------------------------------------- Categories

PREFIXES = {
    "Tag": b"refs/tags/",
    "LocalBranch": b"refs/heads/",
    "RemoteBranch": b"refs/remotes/",
    "Note": b"refs/notes/",
    "PseudoRef": b"",
    "MainPseudoRef": b"main-worktree/",
    "MainRef": b"main-worktree/refs/",
    "LinkedPseudoRef": b"worktrees/",
    "LinkedRef": b"worktrees/",
    "Bisect": b"refs/bisect/",
    "Rewritten": b"refs/rewritten/",
    "WorktreePrivate": b"refs/worktree/",
}
LINKED = ("LinkedPseudoRef", "LinkedRef")

# "Private is as `is_worktree_private` says, shared is every other name."
PRIVATE = ("MainPseudoRef", "PseudoRef", "LinkedPseudoRef", "WorktreePrivate", "Rewritten", "Bisect")


# "`category_and_short_name`, in the file's order": category, worktree name and short name; the first is None where
# there is no category. "`refs/notes/a`: Note, short `notes/a`; Bisect, WorktreePrivate and Rewritten keep their word
# too." "`worktrees/w`: no category."
def category(name):
    for kind in ("Tag", "LocalBranch", "RemoteBranch"):
        if name.startswith(PREFIXES[kind]):
            return kind, None, name[len(PREFIXES[kind]):]
    for kind in ("Note", "Bisect", "WorktreePrivate", "Rewritten"):
        if name.startswith(PREFIXES[kind]):
            return kind, None, name[len(b"refs/"):]
    if is_pseudo(name):
        return "PseudoRef", None, name
    if name.startswith(b"main-worktree/"):
        return of_worktree("Main", None, name[len(b"main-worktree/"):])
    if name.startswith(b"worktrees/"):
        worktree, slash, short = name[len(b"worktrees/"):].partition(b"/")
        if slash:
            return of_worktree("Linked", worktree, short)
    return None, None, None


# What stands behind `main-worktree/` or `worktrees/w/` is a reference, a pseudo name or without category.
def of_worktree(which, worktree, short):
    if short.startswith(b"refs/"):
        return which + "Ref", worktree, short
    if is_pseudo(short):
        return which + "PseudoRef", worktree, short
    return None, None, None


def is_private(name):
    return category(name)[0] in PRIVATE


# "`to_full_name` keeps a short name that already begins with the prefix. A short name or a result over 250 bytes is
# refused 3, then an incomplete result 4."
def to_full_name(kind, worktree, short):
    prefix, rest = PREFIXES[kind], short
    if kind in LINKED:
        prefix += worktree + b"/"
    word = {"Note": b"notes/", "MainRef": b"refs/", "Bisect": b"bisect/", "Rewritten": b"rewritten/",
            "WorktreePrivate": b"worktree/"}.get(kind, b"")
    if rest.startswith(word):
        rest = rest[len(word):]
    full = rest if rest.startswith(prefix) else prefix + rest
    if len(short) > LONGEST or len(full) > LONGEST:
        raise Refused(3)
    if not complete(full):
        raise Refused(4)
    return full


# ----------------------------------------------------------------------------------------------------- Namespaces


# "`a/b` expands to `refs/namespaces/a/refs/namespaces/b/`."
def expansion(namespace):
    return b"".join(b"refs/namespaces/" + part + b"/" for part in namespace.split(b"/"))


# "Stripping removes it once, from name and symbolic target, only where it stands in front."
def strip(front, name):
    return name[len(front):] if name.startswith(front) else name


# Rows 3 to 5 of the table: "name, then namespace" over 250 bytes, malformed, "expansion over 250". "Of 1 to 5 the
# earliest row counts". Gives the expansion, empty where there is no namespace.
def check_names(names, namespace):
    every = list(names) + ([] if namespace is None else [namespace])
    if any(len(name) > LONGEST for name in every):
        raise Refused(3)
    if not all(well_formed(name) for name in every):
        raise Refused(4)
    if namespace is None:
        return b""
    if len(expansion(namespace)) > LONGEST:
        raise Refused(5)
    return expansion(namespace)


# ------------------------------------------------------------------------------------------------------- Contents


# "Upper and lower case digits count"
def are_digits(content):
    return all(byte in DIGITS for byte in content)


# "`ref:  HEAD` then CR LF: symbolic `HEAD`. A target ends before the first NUL, CR or LF." "`ref:HEAD`: refused 10."
# "forty digits then `z`: an id", "forty digits then `a`: refused 10." "`ref: ` and nothing: 11."
# "`ref: refs/heads/.invalid`: 12." Symbolic targets must be complete.
def decode(content):
    if content.startswith(b"ref: "):
        target = re.split(rb"[\0\r\n]", content[len(b"ref: "):].lstrip(b" "), maxsplit=1)[0]
        if target == b"refs/heads/.invalid":
            raise Refused(12)
        if not complete(target):
            raise Refused(11)
        return "symbolic", target
    if len(content) < 40 or not are_digits(content[:40]) or content[40:41] and are_digits(content[40:41]):
        raise Refused(10)
    return "object", content[:40].lower()


# --------------------------------------------------------------------------------------------------------- Blocks


# "Bytes 508-511, low first: the sum over positions 0 to 507 of (position + 1) times the byte."
def block_sum(block):
    return sum((position + 1) * byte for position, byte in enumerate(block[:508]))


# The parts of a block: "Byte 0 is the kind", "Byte 1: name length", "Bytes 2-3, low first: content length",
# "Name from 8, content from 258".
def parts(block):
    name_length, content_length = block[1], block[2] + 256 * block[3]
    return block[0], block[8:8 + name_length], block[258:258 + content_length]


# "A block is damaged if any of this fails, its kind does not suit the region (1 to 3 loose, 4 and 5 packed), kind 2
# has content, kinds 3 and 5 have a name or content, or kind 4 has a malformed name or a content other than 40 digits
# (target) or 80 (target, then peeled id)."
def is_damaged(block, packed):
    name_length, content_length = block[1], block[2] + 256 * block[3]
    kind, name, content = parts(block)
    return (
        name_length > LONGEST
        or content_length > LONGEST
        or any(block[4:8])
        or any(block[8 + name_length:258])
        or any(block[258 + content_length:508])
        or int.from_bytes(block[508:512], "little") != block_sum(block)
        or kind not in ((4, 5) if packed else (1, 2, 3))
        or kind == 2 and content_length > 0
        or kind in (3, 5) and name_length + content_length > 0
        or kind == 4 and (not well_formed(name) or len(content) not in (40, 80) or not are_digits(content))
    )


# An entry: what a block stands for. "1 loose file, 2 loose file that could not be read, 3 walk error, 4 packed
# record, 5 packed error"; "an answered or printed id is in lower case".
@lru_cache(maxsize=4096)
def entry(block, packed):
    if is_damaged(block, packed):
        return ("damaged",)
    kind, name, content = parts(block)
    if kind in (3, 5):
        return ("error",)
    if kind == 1:
        return "loose", name, content
    if kind == 2:
        return "unreadable", name
    return "packed", name, content[:40].lower(), content[40:].lower() or None


# "A region is worktree, common or packed; the last two may be absent, and absent lists as empty. Each is a run of
# 512-byte blocks."
def entries(region, packed):
    region = region or b""
    return [entry(region[at:at + BLOCK], packed) for at in range(0, len(region), BLOCK)]


# ------------------------------------------------------------------------------------------------------- Snapshot

REGIONS = ("worktree", "common", "packed")


# Rows 1 and 2: "size not a multiple of 512", "over 4,096 blocks".
def check_sizes(regions):
    if any(len(region or b"") % BLOCK for region in regions):
        raise Refused(1)
    if any(len(region or b"") > MOST_BLOCKS * BLOCK for region in regions):
        raise Refused(2)


# Rows 6 to 8: damaged; kind 3 or 5; name not above the one before. "Of 6 to 8 the first block counts, regions in the
# order worktree, common, packed and blocks numbered from 0, and at one block the lowest number."
def check_blocks(regions):
    for which, region in zip(REGIONS, regions):
        before = None
        for number, this in enumerate(entries(region, which == "packed")):
            if this[0] == "damaged":
                raise Refused(6, which, number)
            if this[0] == "error":
                raise Refused(7, which, number)
            if before is not None and order(before, this[1]) != "less":
                raise Refused(8, which, number)
            before = this[1]


# --------------------------------------------------------------------------------------------------------- Search


# A candidate's name: "`\"\"`, `tags`, `heads`, `remotes` in between, `refs/` in front unless x looks full."
def candidate(between, x, consider_pseudo):
    return (b"" if looks_full(x, consider_pseudo) else b"refs/") + (between + b"/" if between else b"") + x


# "If x is pseudo, the first pass holds only x itself, and a second pass begins only when the first is left early,
# pseudo names no longer considered. Last, unless x is `HEAD`: `x/HEAD`, itself the partial name that may look full,
# with `remotes`, never sought packed." Gives each name, and whether it is sought packed.
def candidates(x):
    directories = (b"", b"tags", b"heads", b"remotes")
    if is_pseudo(x):
        found = [(x, True)] + [(candidate(between, x, False), True) for between in directories]
    else:
        found = [(candidate(between, x, True), True) for between in directories]
    if x != b"HEAD":
        found.append((candidate(b"remotes", x + b"/HEAD", True), False))
    return found


# "Routing is by the candidate's category, as in `to_base_dir_and_relative_name`".
def route(name):
    kind, _, short = category(name)
    if kind in ("PseudoRef", "Bisect", "Rewritten", "WorktreePrivate"):
        return "worktree", name
    if kind in ("MainRef", "MainPseudoRef") or kind == "LinkedRef" and not is_private(short):
        return "common", short
    return "common", name


# "`main-worktree/refs/heads/a` is sought packed as `refs/heads/a`; MainPseudoRef, PseudoRef, LinkedPseudoRef and
# WorktreePrivate are never sought there."
def packed_name(name):
    kind, _, short = category(name)
    if kind in ("MainPseudoRef", "PseudoRef", "LinkedPseudoRef", "WorktreePrivate"):
        return None
    return short if kind in ("MainRef", "LinkedRef") else name


# An answer is name, target kind, target and, from packed, the peeled id; name and symbolic target are stripped.
def answered(name, kind, target, peeled, front):
    return strip(front, name), kind, strip(front, target) if kind == "symbolic" else target, peeled


# A loose file as an answer under `name`: row 9, "kind 2", else its content decides.
def read_file(name, file, front):
    if file[0] == "unreadable":
        raise Refused(9)
    return answered(name, *decode(file[2]), None, front)


# "If a loose file of that base is a proper directory of the routed path, the candidate is absent and packed is not
# consulted. Else an exact loose file decides; else packed. A loose answer carries the candidate's name, a packed one
# the record's". "The namespace goes before the routed name and, packed, before the name [..] for lookup".
# "A candidate over 250 bytes is absent." "without a common region its part is played by worktree."
def find_candidate(regions, front, name, sought_packed):
    if len(name) > LONGEST:
        return None
    base, routed = route(name)
    worktree, common, packed = regions
    files = entries(worktree if base == "worktree" or common is None else common, False)
    path = front + routed
    if any(is_directory_of(file[1], path) for file in files):
        return None
    for file in files:
        if file[1] == path:
            return read_file(name, file, front)
    if sought_packed and packed_name(name) is not None:
        for record in entries(packed, True):
            if record[1] == front + packed_name(name):
                return answered(record[1], "object", record[2], record[3], front)
    return None


# "The first one found or refused ends the search."
def search(regions, front, x):
    for name, sought_packed in candidates(x):
        answer = find_candidate(regions, front, name, sought_packed)
        if answer is not None:
            return answer
    return None


# Search checked: rows 1 to 5, then 6 to 8 "before search", then the search. None is "not there".
def find(regions, namespace, x):
    check_sizes(regions)
    front = check_names([x], namespace)
    check_blocks(regions)
    return search(regions, front, x)


# ------------------------------------------------------------------------------------------------------ Following


# "Following searches each target as a partial name again, without checking it anew." "An object target, unless the
# step that reaches it gives 14 or 15, ends following". Rows 13 to 15: "target not found", "next name already seen",
# "five names seen". The starting reference is not counted as seen.
def follow(regions, namespace, x):
    here = find(regions, namespace, x)
    if here is None:
        return None
    front = check_names([], namespace)
    seen = []
    while here[1] == "symbolic":
        there = search(regions, front, here[2])
        if there is None:
            raise Refused(13, here[0])
        if there[0] in seen:
            raise Refused(14, here[0])
        here = there
        seen.append(here[0])
        if len(seen) == 5:
            raise Refused(15, here[0])
    return here[2], here[0]


# -------------------------------------------------------------------------------------------------------- Listing


# Rows 1 to 5; the state keeps the expansion and the three positions.
def open_listing(regions, namespace):
    check_sizes(regions)
    return check_names([], namespace), (0, 0, 0)


# "Without a namespace, loose entries begin `refs/` and packed is unfiltered; with one, all begin with its expansion.
# Damaged blocks and kinds 3 and 5 are error entries." "a loose entry whose name is not well formed is skipped";
# "Private names of the common region change nothing in a listing."
def is_shown(this, which, front):
    if this[0] in ("damaged", "error"):
        return True
    if which == "packed":
        return this[1].startswith(front)
    if which == "common" and is_private(this[1]):
        return False
    return this[1].startswith(front or b"refs/") and well_formed(this[1])


# What waits in a region: the first entry shown at or behind the position, with its block number. "A position past a
# region is its end."
def waiting(region, which, front, position):
    every = entries(region, which == "packed")
    for number in range(position, len(every)):
        if is_shown(every[number], which, front):
            return number, every[number]
    return None


def is_error(wait):
    return wait is not None and wait[1][0] in ("damaged", "error")


# Which regions a step takes from, the one that answers first. "A packed error comes first if loose waits; then a
# common error, even before a worktree entry; then a worktree error; then the smaller name. Equal names: worktree
# over common over packed, the lower consumed." Empty where nothing waits.
def taken(waits):
    for which in ("packed", "common", "worktree"):
        if is_error(waits[which]):
            return [which]
    named = [which for which in REGIONS if waits[which] is not None]
    if not named:
        return []
    smallest = min(waits[which][1][1] for which in named)
    return [which for which in named if waits[which][1][1] == smallest]


# The answer of an entry that is handed out: rows 6, 7 and 9 to 12, or the reference.
def handed_out(this, front):
    if this[0] == "damaged":
        raise Refused(6)
    if this[0] == "error":
        raise Refused(7)
    if this[0] == "packed":
        return answered(this[1], "object", this[2], this[3], front)
    return read_file(this[1], this, front)


# One step from a state that has not ended: the answer ("ended", a refusal or a reference) and the positions after
# it. "Each error is handed out, its entry consumed, and the listing goes on". "After a step each position stands
# just past the block it handed out or consumed, else where it was". Row 1 and 2: "listing state unchanged".
def step(regions, front, positions):
    try:
        check_sizes(regions)
    except Refused as refusal:
        return refusal, positions
    waits = {which: waiting(region, which, front, position)
             for which, region, position in zip(REGIONS, regions, positions)}
    takes = taken(waits)
    if not takes:
        return "ended", positions
    after = tuple(waits[which][0] + 1 if which in takes else position
                  for which, position in zip(REGIONS, positions))
    try:
        return handed_out(waits[takes[0]][1], front), after
    except Refused as refusal:
        return refusal, after


# --------------------------------------------------------------------------------------------------------- Format

LARGEST = 2 ** 64 - 1
MOST_BYTES = 40 * BLOCK + 1


class Shape(Exception):
    """The line has no shape of the format: it is answered `?`."""


def read_bytes(field):
    if field == b"-":
        return b""
    if len(field) > 2 * MOST_BYTES or not re.fullmatch(rb"([0-9a-f][0-9a-f])+", field):
        raise Shape
    return bytes.fromhex(field.decode())


def read_bytes_or_absent(field):
    return None if field == b"~" else read_bytes(field)


def read_number(field):
    digits = field.lstrip(b"0")
    if not re.fullmatch(rb"[0-9]+", field) or len(digits) > 20 or int(digits or b"0") > LARGEST:
        raise Shape
    return int(digits or b"0")


def read_word(*words):
    def read(field):
        if field.decode("latin-1") not in words:
            raise Shape
        return field.decode("latin-1")
    return read


def show(name):
    return "~" if name is None else name.hex() or "-"


def show_id(digits):
    return "~" if digits is None else digits.decode()


def show_reference(reference):
    name, kind, target, peeled = reference
    if kind == "symbolic":
        return f"{show(name)} symbolic {show(target)} ~"
    return f"{show(name)} object {show_id(target)} {show_id(peeled)}"


def show_refusal(refusal):
    values = [show(value) if isinstance(value, bytes) else str(value) for value in refusal.values]
    return " ".join(["refused", str(refusal.number)] + values)


def show_step(answer, positions):
    if isinstance(answer, Refused):
        text = show_refusal(answer)
    else:
        text = answer if answer == "ended" else "ref " + show_reference(answer)
    return text + " at " + " ".join(str(position) for position in positions)


class Replay:
    """The state of a run over questions: three regions and a namespace."""

    def __init__(self):
        self.regions = {"worktree": b"", "common": None, "packed": None}
        self.namespace = None
        h, o, n = read_bytes, read_bytes_or_absent, read_number
        self.questions = {
            b"worktree": ([h], self.set_worktree),
            b"common": ([o], self.set_common),
            b"packed": ([o], self.set_packed),
            b"namespace": ([o], self.set_namespace),
            b"wellformed": ([h], lambda name: ["yes" if well_formed(name) else "no"]),
            b"complete": ([h], lambda name: ["yes" if complete(name) else "no"]),
            b"pseudo": ([h], lambda name: ["yes" if is_pseudo(name) else "no"]),
            b"order": ([h, h], lambda one, other: [order(one, other)]),
            b"category": ([h], self.ask_category),
            b"fullname": ([read_word(*PREFIXES), o, h], self.ask_fullname),
            b"expand": ([h], lambda name: ["name " + show(check_names([], name))]),
            b"strip": ([h, h], lambda front, name: ["name " + show(strip(front, name))]),
            b"decode": ([h], self.ask_decode),
            b"block": ([read_word("loose", "packed"), h], self.ask_block),
            b"fit": ([], self.ask_fit),
            b"find": ([h], self.ask_find),
            b"follow": ([h], self.ask_follow),
            b"list": ([n], self.ask_list),
            b"step": ([n, n, n], self.ask_step),
        }

    def snapshot(self):
        return tuple(self.regions[which] for which in REGIONS)

    def set_worktree(self, region):
        self.regions["worktree"] = region
        return []

    def set_common(self, region):
        self.regions["common"] = region
        return []

    def set_packed(self, region):
        self.regions["packed"] = region
        return []

    def set_namespace(self, namespace):
        self.namespace = namespace
        return []

    def ask_category(self, name):
        kind, worktree, short = category(name)
        return ["none" if kind is None else f"{kind} {show(worktree)} {show(short)}"]

    def ask_fullname(self, kind, worktree, short):
        if kind in LINKED and worktree is None:
            raise Shape
        return ["name " + show(to_full_name(kind, worktree, short))]

    def ask_decode(self, content):
        if len(content) > LONGEST:
            raise Shape
        kind, target = decode(content)
        return [f"symbolic {show(target)}" if kind == "symbolic" else f"object {show_id(target)}"]

    def ask_block(self, which, block):
        if len(block) != BLOCK:
            raise Shape
        this = entry(block, which == "packed")
        if this[0] == "packed":
            return [f"packed {show(this[1])} {show_id(this[2])} {show_id(this[3])}"]
        return [" ".join([this[0]] + [show(part) for part in this[1:]])]

    def ask_fit(self):
        check_sizes(self.snapshot())
        check_blocks(self.snapshot())
        return ["fit"]

    def ask_find(self, name):
        answer = find(self.snapshot(), self.namespace, name)
        return ["absent" if answer is None else "found " + show_reference(answer)]

    def ask_follow(self, name):
        answer = follow(self.snapshot(), self.namespace, name)
        return ["absent" if answer is None else f"id {show_id(answer[0])} {show(answer[1])}"]

    # "ended stays ended": past the end the listing answers ended again, the positions as they are.
    def ask_list(self, count):
        front, positions = open_listing(self.snapshot(), self.namespace)
        lines, ended = [], False
        for _ in range(count):
            answer = "ended"
            if not ended:
                answer, positions = step(self.snapshot(), front, positions)
                ended = answer == "ended"
            lines.append(show_step(answer, positions))
        return lines

    # A namespace that is refused is answered as the opening would.
    def ask_step(self, *positions):
        try:
            front = check_names([], self.namespace)
        except Refused:
            front, _ = open_listing(self.snapshot(), self.namespace)
        return [show_step(*step(self.snapshot(), front, positions))]

    def answer(self, line):
        """The answers to one line, without its LF."""
        if line == b"" or line.startswith(b"#"):
            return []
        keyword, *fields = line.split(b" ")
        readers, ask = self.questions.get(keyword, (None, None))
        if ask is None or len(readers) != len(fields):
            return ["?"]
        try:
            return ask(*[read(field) for read, field in zip(readers, fields)])
        except Shape:
            return ["?"]
        except Refused as refusal:
            return [show_refusal(refusal)]


def lines_of(data):
    """The lines of an input; one that ends without LF is read as if LF stood there."""
    lines = data.split(b"\n")
    return lines if lines[-1] else lines[:-1]


def main():
    replay = Replay()
    for line in lines_of(sys.stdin.buffer.read()):
        for answer in replay.answer(line):
            print(answer)


if __name__ == "__main__":
    main()
