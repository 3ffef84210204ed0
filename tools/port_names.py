#!/usr/bin/env python3
"""port_names.py: run once, after port.py, at the top: the repository's own definitions and lemmas in snake case.

A name that a file of specs/ or proofs/ declares, begins with a small letter or a sign, and joins its words by dashes, joins them by
underscores from here on: block-kind is block_kind, and shape-right-spec is shape_right_spec. A dash before a sign stays, as in
sorted-∷, and so do names that begin with a type, as All-in, names that a library has too, and those that the prover makes for goals.
Comments, strings and the code of src/ stay as they are. In the edits, the pages and the tools names turn where they are quoted.
It stops where two names of one file would fall together.
"""
import pathlib, re, sys

top = pathlib.Path(__file__).resolve().parent.parent
TOKEN = re.compile(r"[^\s(){}\[\].,;«»]+")
WORDS = {"use", "module", "where", "unfolding", "let", "open", "ghost", "mod", "elim", "rw", "if", "else", "in", "record", "data"}


def declared(text):
    """The names that a file of antt declares, but for those that it gives to goals of the prover's."""
    for line in text.split("\n"):
        line = line.split("--")[0] if not re.search(r"\S--\S", line) else line
        m = re.match(r"^\s*((?:abbrev |unfoldable |pub )*)(data |record )?([^\s(){}\[\].,;:=]+(?:\s+[^\s(){}\[\].,;:=]+)*)\s*(:|\{|\(|$)", line)
        if not m or m[3].split()[0] in WORDS or not (m[4] == ":" or m[2]):
            continue
        if re.search(r": tie\.", line):
            continue
        yield from m[3].split()[:1] if m[2] else m[3].split()


def turned(name):
    return re.sub(r"(?<=[\w'])-(?=[A-Za-z0-9])|(?<=≺)-(?=[A-Za-z0-9])", "_", name)


def brought_in():
    """What files import from the libraries, which has its own spelling."""
    own = "|".join(p.name for p in (top / "crates").iterdir())
    lines = [l for p in top.glob("crates/**/*") if p.suffix in (".rt", ".antt") for l in p.read_text().split("\n")]
    found = [m[1] for l in lines if (m := re.match(rf"(?:ghost )?(?:pub )?use (?!Rattle\.(?:{own})\.)[\w.]+\.\{{(.*)\}}", l))]
    return {n for names in found for n in names.split(", ")}


def mapping():
    found, taken, foreign = set(), set(), brought_in()
    for path in top.glob("crates/*/*/**/*.antt"):
        if path.relative_to(top).parts[2] in ("specs", "proofs"):
            for name in declared(path.read_text()):
                (found if "-" in name and not name[0].isupper() else taken).add(name)
    names = {n: turned(n) for n in found if turned(n) != n and n not in foreign}
    for n in list(names):  # an operator with an opening and a closing hole is used without them
        if n.startswith("◌"):
            names[n.strip("◌")] = names[n].strip("◌")
    clash = sorted(n for n in names if names[n] in taken)
    return names, clash


def ghost_spans(text):
    """Of a source file: what is neither comment nor string."""
    at = 0
    for m in re.finditer(r'//[^\n]*|b?"(?:\\.|[^"\\])*"|b\'(?:\\.|[^\'\\])\'', text):
        yield text[at : m.start()], True
        yield m[0], False
        at = m.end()
    yield text[at:], True


def antt_spans(text):
    at = 0
    for m in re.finditer(r"(?m)(?:^|(?<=\s))--[^\n]*", text):
        yield text[at : m.start()], True
        yield m[0], False
        at = m.end()
    yield text[at:], True


def turn(text, names):
    return TOKEN.sub(lambda m: names.get(m[0], m[0]), text)


def turn_all(spans, names):
    return "".join(turn(t, names) if ours else t for t, ours in spans)


def quoted(text, names):
    return re.sub(r"`[^`\n]+`", lambda m: TOKEN.sub(lambda t: names.get(t[0].strip("`"), None) and t[0].replace(t[0].strip("`"), names[t[0].strip("`")]) or t[0], m[0]), text)


def edit(text, names):
    return "\n".join(turn(l, names) if re.match(r"(old|new):", l) else l for l in text.split("\n"))


def main():
    names, clash = mapping()
    print(f"{len(names)} names turn")
    for n in clash:
        print(f"look: {n} becomes {names[n]}, which a file declares already")
    changed = 0
    for path in sorted(p for p in top.glob("crates/**/*") if p.suffix in (".rt", ".antt", ".edit") and "out" not in p.parts) + sorted([*top.glob("*.md"), *top.glob("docs/*.md"), *top.glob("*/README.md")]):
        text = path.read_text()
        if path.suffix == ".antt":
            new = turn_all(antt_spans(text), names)
        elif path.suffix == ".rt":
            new = turn_all(ghost_spans(text), names)
        elif path.suffix == ".edit":
            new = edit(text, names)
        else:
            new = quoted(text, names)
        if new != text:
            path.write_text(new)
            changed += 1
    print(f"{changed} files changed")


if __name__ == "__main__":
    sys.exit(main())
