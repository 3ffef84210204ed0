#!/usr/bin/env python3
"""port_edits.py COMMIT: run once, after port.py and port_names.py: the wrong programs of COMMIT in today's spelling.

Each edit is taken as it was at COMMIT (git show): its old text stood in its file then, within one line and one function or
definition. Of a file of src/ most code kept its spelling, and the text stays where it stands once in the same function. Of a file
of specs/ the text is turned as the file was: paths, operators, projections written tight, dashes. The text that comes out must
stand once, and on the line that stands for the old one. What does not is told, for a hand.
"""
import difflib, pathlib, re, subprocess, sys

top = pathlib.Path(__file__).resolve().parent.parent

# Today's spelling of what the old texts hold.
TURNS = [
    (r"Rattle·(\w+)·specs\.specs\.", r"Rattle.\1.specs."),
    (r"Rattle·(\w+)\.specs\.", r"Rattle.\1.specs."),
    (r"mathlib\.Core\.Option\.", "Rattle.std.proofs.Math.Option."),
    (r"\b(\w+)·(\w+)", r"\1.\2"),
    (r"\((\w+(?: \w+)+) \.(\w+)\)", r"(\1).\2"),  # (route n .base) is (route n).base
    (r"\((\w+) \.(\w+)\)", r"\1.\2"),
    (r"\b(\w+) \.(\w+)", r"\1.\2"),
    (r"(?<=[\w'])-(?=[A-Za-z0-9])", "_"),
]


def turned(text):
    for was, now in TURNS:
        text = re.sub(was, now, text)
    return text


def at(commit, path):
    return subprocess.run(["git", "show", f"{commit}:{path}"], cwd=top, capture_output=True, text=True, check=True).stdout


def place(text, part):
    """The function, type or constant in which the part stands."""
    line = text[: text.index(part)].count("\n")
    lines = text.split("\n")
    for i in range(line, -1, -1):
        if m := re.match(r'\s*(?:pub )?(?:const )?(?:extern "C" )?(?:fn|struct|enum|static) (\w+)|\s*(?:pub )?const (\w+)', lines[i]):
            return m[1] or m[2]
    return ""


def turn(path, commit):
    """The edit's text as it is to stand, and what does not stand."""
    text, wrong, file, old = at(commit, path), [], "", ""
    crate = pathlib.Path(path).parts[1]
    out, was, now = [], {}, {}
    for line in text.split("\n"):
        if line.startswith("file: "):
            file = line[6:]
            was.setdefault(file, at(commit, f"crates/{crate}/{file}"))
            now.setdefault(file, (top / "crates" / crate / file).read_text())
        elif line.startswith("old: "):
            old = line[5:]
            if was[file].count(old) != 1:
                wrong.append(f"it stood {was[file].count(old)} times at {commit}: {old}")
                break
            mine = old if file.endswith(".rt") else turned(old)
            if now[file].count(mine) != 1:
                wrong.append(f"stands {now[file].count(mine)} times in {file}: {mine}")
            elif file.endswith(".rt") and place(was[file], old) != place(now[file], mine):
                wrong.append(f"stood in {place(was[file], old)}, and stands in {place(now[file], mine)}")
            elif not file.endswith(".rt"):
                a, b = (next(l for l in t[file].split("\n") if part in l) for t, part in ((was, old), (now, mine)))
                if difflib.SequenceMatcher(None, turned(a), b).ratio() < 0.8:
                    wrong.append(f"another line: {a} / {b}")
            line = "old: " + mine
        elif line.startswith("new:"):
            new = line[5:]
            theirs = new if file.endswith(".rt") else turned(new)
            was[file] = was[file].replace(old, new)
            now[file] = now[file].replace(mine, theirs)
            line = line[:5] + theirs
        out.append(line)
    return "\n".join(out), wrong


def main(commit):
    changed = bad = count = 0
    listed = subprocess.run(["git", "ls-tree", "-r", "--name-only", commit, "crates/"], cwd=top, capture_output=True, text=True, check=True).stdout.splitlines()
    for path in (p for p in listed if p.endswith(".edit")):
        count += 1
        text, wrong = turn(path, commit)
        for what in wrong:
            print(f"{path}: {what}")
        bad += bool(wrong)
        if text != (top / path).read_text():
            (top / path).write_text(text)
            print(f"turned: {path}")
            changed += 1
    print(f"{count} edits, {changed} files written, {bad} by hand")
    return 1 if bad else 0


if __name__ == "__main__":
    sys.exit(main(sys.argv[1]))
