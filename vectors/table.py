"""What the case files are written with: blocks, snapshots, questions and answers in readable form.

In questions and answers `'refs/heads/a'` stands for the hexadecimal digits of the bytes between the quotes (`''` is the
empty string, Python's escapes such as \\x00 count) and `#1` for an id of forty digits 1.
"""

import re


def block(kind, name=b"", content=b""):
    """A sound block; what stands in it may still be wrong for the kind."""
    data = bytearray(512)
    data[0], data[1], data[2], data[3] = kind, len(name), len(content) % 256, len(content) // 256
    data[8:8 + len(name)] = name
    data[258:258 + len(content)] = content
    return summed(data)


def summed(data):
    """The block with the sum of its bytes 0 to 507 put in."""
    total = sum((position + 1) * byte for position, byte in enumerate(data[:508]))
    return bytes(data[:508]) + total.to_bytes(4, "little")


def changed(data, *changes, sum_too=True):
    """The block with (position, byte) changed, its sum made right again or left as it was."""
    data = bytearray(data)
    for position, byte in changes:
        data[position] = byte
    return summed(data) if sum_too else bytes(data)


def as_bytes(text):
    """A text's bytes, each character below 256 one byte."""
    return text if isinstance(text, bytes) else text.encode("latin-1")


def file(name, content):
    """Kind 1, a loose file."""
    return block(1, as_bytes(name), as_bytes(content))


def oid(name, digit):
    """A loose file that holds an id of forty equal digits, and LF."""
    return file(name, digit * 40 + "\n")


def ref(name, target):
    """A loose file that holds a symbolic reference."""
    return file(name, "ref: " + target + "\n")


def unreadable(name):
    """Kind 2, a loose file that could not be read."""
    return block(2, as_bytes(name))


def record(name, digit, peeled=""):
    """Kind 4, a packed record: its target and, where there is one, its peeled id, of forty equal digits each."""
    return block(4, as_bytes(name), as_bytes(digit * 40 + peeled * 40))


def rising(*blocks):
    """The blocks in the order of their names."""
    return sorted(blocks, key=lambda data: data[8:8 + data[1]])


WALK_ERROR = block(3)
PACKED_ERROR = block(5)


def hurt(data):
    """The block damaged: its sum is wrong by one."""
    return changed(data, (508, (data[508] + 1) % 256), sum_too=False)


def spell(line):
    """A line in readable form, as the format has it."""
    def quoted(match):
        text = match.group(1).encode("latin-1").decode("unicode_escape")
        return text.encode("latin-1").hex() or "-"
    line = re.sub(r"'([^']*)'", quoted, line)
    return re.sub(r"(?<= )#([0-9a-f])(?= |$)", lambda match: match.group(1) * 40, line).encode("latin-1")


class Table:
    """The questions in order; each with its hand-worked answers, or None where the model alone answers."""

    def __init__(self):
        self.lines = []
        self.answers = []
        self.now = {"worktree": b"", "common": None, "packed": None, "namespace": None}

    def add(self, line, answers):
        self.lines.append(line)
        self.answers.append(answers)

    def note(self, text):
        """A comment line: which sentence the cases below stand for."""
        self.add(b"# " + text.encode("latin-1"), [])

    def raw(self, line, *answers):
        """A line just as it is."""
        self.add(line, list(answers))

    def ask(self, question, *answers):
        """A question and its hand-worked answers."""
        self.add(spell(question), [spell(answer).decode() for answer in answers])

    def ask_model(self, question):
        """A question that the model answers alone."""
        self.add(spell(question), None)

    def set(self, which, value):
        """One setter line, left out where it would change nothing."""
        if self.now[which] == value:
            return
        self.now[which] = value
        shown = "~" if value is None else value.hex() or "-"
        self.add(f"{which} {shown}".encode(), [])

    def snapshot(self, worktree=(), common=None, packed=None, namespace=None):
        """The setter lines for regions, given as blocks (or as bytes), and a namespace."""
        for which, region in (("worktree", worktree), ("common", common), ("packed", packed)):
            self.set(which, region if region is None or isinstance(region, bytes) else b"".join(region))
        self.set("namespace", None if namespace is None else as_bytes(namespace))
