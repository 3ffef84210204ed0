"""Random small snapshots, from a seed: few names from a small alphabet, so that clashes, cycles, equal and private
names, namespaces and damage are frequent. The model answers them."""

from table import PACKED_ERROR, WALK_ERROR, block, changed, hurt

SEED = 20611
TURNS = 76

PSEUDO = ["HEAD", "A", "B", "C", "D"]
HELD = ["refs/heads/a", "refs/heads/b", "refs/heads/a/b", "refs/tags/a", "refs/tags/b", "refs/remotes/a",
        "refs/remotes/b/HEAD",
        "refs/bisect/a", "refs/worktree/a", "refs/rewritten/b", "refs/a", "refs/A", "tags/refs/heads/b", "heads/refs/a",
        "worktrees/w/HEAD", "worktrees/w/refs/bisect/a"]
ODD = ["", "refs", "refs/heads", "refs/heads/a.", "refs/a..b", "a", "worktrees/w", "remotes/refs/a/HEAD"]
THROUGH = ["main-worktree/HEAD", "main-worktree/refs/heads/a", "main-worktree/refs/bisect/a",
           "worktrees/w/refs/heads/b",
           "worktrees/v/refs/worktree/a", "refs/namespaces/n/refs/heads/a"]
ASKED = PSEUDO + HELD + THROUGH + ["a", "b", "a/b", "b/HEAD", "heads/a", "tags/a", "bisect/a", "refs",
                                   "heads/refs/heads/b"]
MALFORMED = ["", "@", "a..b", "/a", "a.lock", "refs/heads/", "a" * 251]
NAMESPACES = [None] * 14 + [b"n"] * 7 + [b"n/n", b"m"]
REFUSED = [b"", b"a..b", b"n" * 234, b"n" * 251]
SPACE = "refs/namespaces/n/"


class Dice:
    """Numbers from a seed (splitmix64), the same on every machine and in every version of Python."""

    def __init__(self, seed):
        self.state = seed

    def roll(self, sides):
        self.state = (self.state + 0x9e3779b97f4a7c15) % 2 ** 64
        mixed = (self.state ^ self.state >> 30) * 0xbf58476d1ce4e5b9 % 2 ** 64
        mixed = (mixed ^ mixed >> 27) * 0x94d049bb133111eb % 2 ** 64
        return (mixed ^ mixed >> 31) % sides

    def pick(self, items):
        return items[self.roll(len(items))]

    def chance(self, percent):
        return self.roll(100) < percent


def held_name(dice, spaced):
    kind = dice.roll(20)
    name = dice.pick(PSEUDO if kind < 9 else HELD if kind < 18 else ODD)
    return SPACE + name if dice.chance(spaced) else name


def target(dice, spaced):
    name = dice.pick(PSEUDO) if dice.chance(70) else dice.pick(HELD + THROUGH)
    return SPACE + name if dice.chance(spaced) else name


def content(dice, spaced):
    kind = dice.roll(20)
    if kind < 9:
        return ("ref: " + target(dice, spaced) + "\n").encode()
    if kind < 17:
        return dice.pick("0123456789abcdefAF").encode() * 40 + dice.pick([b"", b"\n", b" x"])
    return dice.pick([b"junk", b"ref: a", b"ref: refs/heads/.invalid\n", b"", b"ref: refs/heads/@"])


def loose(dice, spaced):
    name = held_name(dice, spaced).encode()
    return block(2, name) if dice.chance(12) else block(1, name, content(dice, spaced))


def packed(dice, spaced):
    name = dice.pick(PSEUDO[:1] + HELD * 3 + ["a"])
    name = SPACE + name if dice.chance(spaced) else name
    ids = [dice.pick(b"0123456789aF").to_bytes(1, "little") * 40 for _ in range(1 + dice.roll(2))]
    return block(4, name.encode(), b"".join(ids))


def unfit(dice, region, which):
    """Something that makes the region unfit: damage, disorder, a byte too many, an error."""
    region = list(region)
    kind = dice.roll(9)
    at = dice.roll(len(region) + 1)
    if kind < 2 and region:
        region[at % len(region)] = hurt(region[at % len(region)])
    elif kind < 4 and region:
        region[at % len(region)] = changed(region[at % len(region)], (dice.pick([4, 7, 257, 507]), 1))
    elif kind < 6 and region:
        region.insert(at, dice.pick(region))
    elif kind == 6:
        region.append(b"\0")
    else:
        region.insert(at, PACKED_ERROR if which == "packed" else WALK_ERROR)
    return region


def chain_of(dice, front):
    """Six pseudo names: each leads to the next or to any, and some hold an id."""
    names = PSEUDO + ["E"]
    straight = dice.chance(60)
    blocks = []
    for name, following in zip(names, names[1:] + names[:1]):
        to = following if straight and not dice.chance(10) else dice.pick(names)
        text = "1" * 40 if dice.chance(12) else "ref: " + front + to
        blocks.append(block(1, (front + name).encode(), text.encode()))
    return blocks


def region_of(dice, which, spaced):
    """A region of rising names; in a third of the worktrees all names are pseudo."""
    if which == "worktree" and dice.chance(35):
        made = chain_of(dice, SPACE if spaced > 50 else "")
    else:
        make = packed if which == "packed" else loose
        made = [make(dice, spaced) for _ in range(dice.roll(5) + (which == "worktree") * 2)]
    by_name = {data[8:8 + data[1]]: data for data in made}
    return [by_name[name] for name in sorted(by_name)]


def names_held(regions):
    """The names of all blocks, as text, without the namespace n."""
    found = [data[8:8 + data[1]].decode() for region in regions.values() for data in region or []
             if len(data) == 512]
    return [name[len(SPACE):] if name.startswith(SPACE) else name for name in found if name not in ("", SPACE)]


def ask_names(t, dice, regions, count):
    held = names_held(regions)
    for _ in range(count):
        name = dice.pick(held) if held and dice.chance(75) else dice.pick(ASKED)
        if dice.chance(15):
            name = name[name.find("/") + 1:]
        if dice.chance(2):
            name = dice.pick(MALFORMED)
        t.ask_model(f"{dice.pick(['find', 'follow', 'follow'])} '{name}'")


def write(t, seek_listed):
    dice = Dice(SEED)
    regions = {"worktree": [], "common": None, "packed": None}
    spoiled = []
    for turn in range(TURNS):
        t.note(f"random, turn {turn}")
        namespace = dice.pick(NAMESPACES)
        spaced = dice.pick([30, 60, 90]) if namespace is not None else dice.pick([0, 0, 20])
        for which in spoiled or [dice.pick(["worktree", "worktree", "common", "packed"])]:
            absent = which != "worktree" and dice.chance(25)
            regions[which] = None if absent else region_of(dice, which, spaced)
        spoiled = []
        if dice.chance(25):
            which = dice.pick([which for which in regions if regions[which] is not None])
            regions[which] = unfit(dice, regions[which], which)
            spoiled = [which]
        t.snapshot(namespace=namespace, **regions)
        t.ask_model("fit")
        ask_names(t, dice, regions, 3 if spoiled else 20)
        t.ask_model(f"list {4 + dice.roll(8)}")
        t.set("namespace", dice.pick(REFUSED) if dice.chance(30) else b"n" if namespace is None else None)
        ask_names(t, dice, regions, 2 if spoiled else 4)
        t.ask_model(f"list {1 + dice.roll(4)}")
        for _ in range(3):
            t.ask_model(f"step {dice.roll(5)} {dice.roll(4)} {dice.roll(4)}")
        seek_listed(t, regions)
