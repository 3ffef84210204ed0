#!/usr/bin/env python3
"""Make the example snapshot of document 01 in examples/document-01, or in the folder given."""
import pathlib, sys

sys.dont_write_bytecode = True
here = pathlib.Path(__file__).resolve().parent
sys.path.insert(0, str(here.parent / "tools"))
from blocks import LOOSE, RECORD, block, write


def loose(name, digit):
    return block(LOOSE, name, digit * 40 + b"\n")


def record(name, digit):
    return block(RECORD, name, digit * 40)


EXAMPLE = {
    "worktree": loose(b"refs/bisect/bad", b"4"),
    "common": loose(b"refs/heads/main", b"1"),
    "packed": record(b"refs/heads/main", b"2") + record(b"refs/tags/v1", b"3"),
}

if __name__ == "__main__":
    write(sys.argv[1] if len(sys.argv) > 1 else here / "document-01", EXAMPLE)
