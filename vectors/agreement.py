"""List and search agree, on generated snapshots (document 02, §14): the model is checked, and some of them become cases.

Each listed name is sought whole. On a snapshot that meets the premises it gives what the listing showed; for each premise
there must be snapshots that fail it alone and disagree, else this could tell nothing.
"""

import sys
from collections import Counter

from model import (REGIONS, Refused, check_blocks, check_sizes, find, is_directory_of, is_private, show_reference,
                   show_refusal, step, taken, waiting)
from random_cases import Dice, unfit
from table import block, rising

SEED = 20614
CHECKED = 1500
SHOWN = 24
PREMISES = 5
START = (0, 0, 0)
NAMES = ["refs/heads/a", "refs/heads/b", "refs/heads/c", "refs/tags/a", "refs/tags/v.1", "refs/remotes/o/HEAD", "refs/notes/n",
         "refs/bisect/a", "refs/bisect/b", "refs/worktree/a", "refs/rewritten/b", "refs/a", "HEAD", "refs/heads/b/d"]
CONTENTS = ["1" * 40, "aB" * 20 + "\n", "ref: refs/heads/a\n", "ref: HEAD", "junk", "ref: a", "ref: refs/heads/.invalid\n"]


def names_in(region):
    return [data[8:8 + data[1]] for data in region or [] if data[0] in (1, 2, 4)]


def regions_of(blocks):
    """The three regions as the model takes them."""
    return tuple(None if blocks[which] is None else b"".join(blocks[which]) for which in REGIONS)


def failed(blocks):
    """The premises that the snapshot does not meet."""
    held = [name for which in REGIONS for name in names_in(blocks[which])]
    packed_names = names_in(blocks["packed"])
    beside = [] if blocks["common"] is None else names_in(blocks["worktree"])
    try:
        check_sizes(regions_of(blocks))
        check_blocks(regions_of(blocks))
        fit = True
    except Refused:
        fit = False
    return [premise for premise, met in (
        ("fit for search", fit),
        ("no directory", not any(is_directory_of(one, other) for one in held for other in held)),
        ("packed under refs/", all(name.startswith(b"refs/") for name in packed_names)),
        ("packed not under refs/worktree/", not any(name.startswith(b"refs/worktree/") for name in packed_names)),
        ("worktree private", all(is_private(name) for name in beside)),
    ) if not met]


def answered(answer):
    """Name, target and peeled id, or the number."""
    return show_refusal(answer) if isinstance(answer, Refused) else show_reference(answer)


def listed(regions):
    """What a listing hands out, errors left out: the name of the block, and the answer."""
    positions, shown = START, []
    while True:
        waits = {which: waiting(region, which, b"", at) for which, region, at in zip(REGIONS, regions, positions)}
        takes = taken(waits)
        answer, positions = step(regions, b"", positions)
        if not takes:
            return shown
        if waits[takes[0]][1][0] not in ("damaged", "error"):
            shown.append((waits[takes[0]][1][1], answered(answer)))


def sought(regions, name):
    try:
        answer = find(regions, None, name)
        return "absent" if answer is None else answered(answer)
    except Refused as refusal:
        return show_refusal(refusal)


def is_refused(answer):
    return answer.startswith("refused ")


def loose_of(dice):
    name = dice.pick(NAMES).encode()
    return block(2, name) if dice.chance(15) else block(1, name, dice.pick(CONTENTS).encode())


def packed_of(dice):
    return block(4, dice.pick(NAMES).encode(), (dice.pick("123aF") * 40 * (1 + dice.roll(2))).encode())


def generated(dice):
    """Mostly snapshots that meet the premises or fail one."""
    def some(make, most):
        by_name = {data[8:8 + data[1]]: data for data in (make(dice) for _ in range(dice.roll(most + 1)))}
        return rising(*by_name.values())
    regions = {"worktree": some(loose_of, 4), "common": some(loose_of, 4) if dice.chance(60) else None,
               "packed": some(packed_of, 4) if dice.chance(85) else None}
    if regions["common"] is not None and dice.chance(80):
        regions["worktree"] = [data for data in regions["worktree"] if is_private(data[8:8 + data[1]])]
    if dice.chance(15):
        which = dice.pick([which for which in REGIONS if regions[which] is not None])
        # Of whole blocks: a listing of other sizes is refused at every step.
        regions[which] = [data for data in unfit(dice, regions[which], which) if len(data) == 512]
    return regions


def seek_listed(t, blocks):
    """If the snapshot meets the premises, each listed name as a case, with what the listing showed for its answer."""
    if failed(blocks):
        return
    shown = listed(regions_of(blocks))
    t.snapshot(**blocks)
    t.ask_model(f"list {len(shown) + 1}")
    for name, answer in shown:
        t.ask(f"find '{name.decode()}'", answer if is_refused(answer) else "found " + answer)


def write(t):
    """Checks the model, and writes cases; gives how many snapshots met the premises and how many names they list."""
    dice, met, names, refused, disagree = Dice(SEED), 0, 0, 0, Counter()
    t.note("list and search agree: generated snapshots that meet the premises, each listed name sought")
    while met < CHECKED:
        blocks = generated(dice)
        regions, without = regions_of(blocks), failed(blocks)
        shown = listed(regions)
        alike = all(sought(regions, name) == answer for name, answer in shown)
        if len(without) == 1 and not alike:
            disagree[without[0]] += 1
        if without:
            continue
        if not alike:
            sys.exit(f"agreement.py: the model's listing and search disagree on {blocks}")
        met += 1
        names += len(shown)
        refused += sum(is_refused(answer) for _, answer in shown)
        if met <= SHOWN:
            seek_listed(t, blocks)
    if refused == 0 or len(disagree) < PREMISES:
        sys.exit(f"agreement.py: this tells nothing: {refused} refused; against one premise, and different: {dict(disagree)}")
    return f"agreement: {met} snapshots, {names} listed names, {refused} of them refused, all alike"
