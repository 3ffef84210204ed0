#!/usr/bin/env python3
"""port_mend.py CRATE LOG: writes the clauses of impossible cases that a check asks for, as it shows them."""
import pathlib, re, sys

crate, log = pathlib.Path(sys.argv[1]), open(sys.argv[2]).read()
want = {}
for m in re.finditer(r"^(\./\S+\.antt):(\d+):\d+: error: `([^`]+)`: write the clauses? (.*?)$", log, re.M):
    for cl in re.findall(r"`([^`]+)`", m[4]):
        want.setdefault(m[1], []).append((int(m[2]), m[3], cl))
# several clauses stand below the message, a line each
for m in re.finditer(r"^(\./\S+\.antt):(\d+):\d+: error: `([^`]+)`: write the clauses\n((?:  .*\n)+)", log, re.M):
    for l in m[4].split("\n"):
        if l.startswith(f"  {m[3]} ") and "=" in l:
            want.setdefault(m[1], []).append((int(m[2]), m[3], l.strip()))
n = 0
for file, items in want.items():
    path = crate / file
    lines = path.read_text().split("\n")
    for at, name, clause in sorted(items, reverse=True):
        short = clause.split()[0]
        end = None
        i = at - 1
        indent = re.match(r"\s*", lines[i])[0]
        # from the place of the error on: the last clause of this name at this depth
        j = i
        while j < len(lines):
            l = lines[j]
            if l.strip() and not l.startswith(indent):
                break
            if l.startswith(indent) and l[len(indent):].split()[:1] == [short]:
                end = j
                k = j + 1
                while k < len(lines) and (not lines[k].strip() or lines[k].startswith(indent + " ")):
                    if lines[k].strip():
                        end = k
                    k += 1
            elif l.startswith(indent) and l.strip() and not l[len(indent)].isspace() and j > i and end is not None:
                break
            j += 1
        if end is None:
            print(f"{file}:{at}: no place for {clause}")
            continue
        lines.insert(end + 1, indent + clause)
        n += 1
    path.write_text("\n".join(lines))
print(f"{n} clauses written")
