"""How a snapshot is written: the layout of a block (document 01, 'Blocks') and the three files of a folder."""
import os
from operator import mul

SIZE = 512
LONGEST = 250  # bytes of a name, and of a content
MOST = 4096  # blocks of a region
REGIONS = ("worktree", "common", "packed")
LOOSE, UNREADABLE, WALK_ERROR, RECORD, PACKED_ERROR = 1, 2, 3, 4, 5  # kinds


def block(kind, name=b"", content=b""):
    if max(len(name), len(content)) > LONGEST:
        raise ValueError("too long for a block")
    out = bytearray(SIZE)
    out[0], out[1] = kind, len(name)
    out[2:4] = len(content).to_bytes(2, "little")
    out[8 : 8 + len(name)] = name
    out[258 : 258 + len(content)] = content
    out[508:] = sum(map(mul, range(1, 509), out)).to_bytes(4, "little")
    return bytes(out)


def write(folder, regions):
    """Replace the folder's files by `regions`, region -> bytes. A region that isn't among them is absent, which
    only a missing file says, so an older file of it goes. All are written whole under other names first: a full
    disc leaves the old snapshot. They are then renamed one by one: don't read the folder meanwhile."""
    os.makedirs(folder, exist_ok=True)
    final = {region: os.path.join(folder, region + ".blk") for region in REGIONS}
    fresh = {region: f"{final[region]}.{os.getpid()}" for region in regions}
    try:
        for region, data in regions.items():
            with open(fresh[region], "xb") as file:
                file.write(data)
        for region in REGIONS:
            if region in regions:
                os.replace(fresh[region], final[region])
            elif os.path.lexists(final[region]):
                os.remove(final[region])
    finally:
        for path in fresh.values():
            if os.path.lexists(path):
                os.remove(path)
