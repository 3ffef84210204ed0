#!/usr/bin/env python3
"""port_proofs.py CRATE NAMES [FUNCTION..]: proofs that walk a function by `tie`, as invariants and answers.

NAMES is the names.json that `rt check --generated FOLDER --old-names` writes in the crate's folder. Each proofs/F/Proof.antt becomes
proofs/F/Invariants.antt and proofs/F/Answers.antt: goals and steps under today's names, no answer where it was `search rules`.
"""
import json, pathlib, re, sys

top = pathlib.Path(__file__).resolve().parent.parent
NAME = r"[^\s(){}\[\].,;:=]+"


def flat(name):
    return re.sub(r"[-_]", "_", name)


def blocks(text):
    """The file's parts that begin at the margin: comments, imports, declarations."""
    found = []
    for line in text.rstrip("\n").split("\n"):
        if line and not line[0].isspace() or not found:
            found.append([line])
        else:
            found[-1].append(line)
    return ["\n".join(b).rstrip() for b in found]


def declarations(parts):
    """Comments and imports, then (comment, signature, unfolding, clauses) of each declaration."""
    imports, out, comment = [], [], []
    for b in parts:
        if re.match(r"(pub )?use ", b):
            imports.append(b)
        elif b.startswith("--"):
            comment.append(b)
        elif b.startswith("unfolding"):
            out[-1][2] = b
        elif re.match(rf"((?:abbrev |unfoldable |pub )*)({NAME})(\s+{NAME})*\s*:(?=\s)", b) or re.match(r"(module |record |data |pub data|pub record)", b):
            out.append([comment, b, "", []])
            comment = []
        elif out:
            out[-1][3].append(b)
        else:
            comment.append(b)
    return imports, out


class Names:
    def __init__(self, d):
        self.needs = {flat(a): b for a, b in d["needs"]}
        self.order = [b for _, b in d["needs"]]
        self.fields = {}
        for place in d["places"]:
            if place[2] and place[2][0]:
                self.fields[flat(place[2][0])] = place[2][1]
        self.arms = {}
        for arm in d["arms"]:
            for new, old, way in arm[2] if arm else []:
                if way:
                    self.arms[(flat(old), *way)] = f"{arm[0]}.{new}"
        asked = {b for _, b in d["asked_at"]}
        self.own = {arm[0]: f[0] for arm in d["arms"] if arm for f in arm[2] if f[0].endswith("-own") and not f[2]}
        self.told = {k[0] for k in self.arms}
        self.places = {flat(p[0]): n if n in asked else re.sub(r"-\d+$", "", n) for p, n in zip(d["places"], d["places_by_name"])}
        for loop, _ in d["loops"]:
            self.fields[flat(loop[0])] = loop[1]
        self.loops = {flat(l[0][0]): (l[0][1], l[1], d["changed"][i] if i < len(d["changed"]) else []) for i, l in enumerate(d["loops"])}

    def need(self, local, need):
        for n in (local, need, re.sub(r"^overflow-", "", need), re.sub(r"^slice-bounds-", "part-", need)):
            if flat(n) in self.needs:
                return self.needs[flat(n)]
        return None


HEADS = ("args", "ranges", "new", "old", "now", "result", "ensures", "requires", "type_inv", "ghost")


def paths(body, names, left):
    body = re.sub(r"(\.before)+\b", "", body)
    # a short name of what a match learns goes, since its parts have names of their own
    for m in re.finditer(rf"let ([\w₀-₉']+) = (c\.({NAME})) in\s*", body):
        if flat(m[3]) in names.told:
            body = re.sub(rf"(?<![\w.'-]){re.escape(m[1])}(?=\.)", m[2], body.replace(m[0], "", 1))

    whole = {"c"} | {m[1] for m in re.finditer(r"let ([\w₀-₉']+) = c in", body)}

    def one(m):
        parts = m[2].split(".")[1:]
        for k in range(len(parts), 0, -1):
            key = (flat(parts[0]), *parts[1:k])
            if key in names.arms:
                return ".".join([m[1], names.arms[key], *parts[k:]])
        new = names.fields.get(flat(parts[0])) or re.sub(r"(?<=\w)-(?=[a-z])", "_", parts[0])
        return ".".join([m[1], new, *parts[1:]]) if m[1] in whole else m[0]

    body = re.sub(rf"(?<![\w.'-])([\w₀-₉']+)((?:\.{NAME})+)", one, body)
    body = re.sub(rf"(?<=args\.){NAME}", lambda m: m[0].replace("-", "_"), body)
    body = re.sub(rf"\.(in_default[\w-]*)\.rest\b", lambda m: f".{m[1]}.{names.own.get(m[1], m[1] + '-own')}.rest", body)
    body = re.sub(r"(\.if-[^\s,().]*)\.(taken|left)\b", lambda m: m[1] + (".true" if m[2] == "taken" else ".false"), body)
    deep = r"[^\s()]+|\((?:[^()]|\((?:[^()]|\([^()]*\))*\))*\)"
    body = re.sub(rf"\(not-(?:true|false) (?:{deep}) (\(?[\w.'-]*\.if-not-[^\s,()]*\.(?:true|false))\)", r"\1", body)
    return re.sub(rf"not-(?:true|false) (?:{deep}) (?=[\w.'-]*\.if-not-[^\s,()]*\.(?:true|false))", "", body)


def convert(path, names, crate, where):
    imports, decls = declarations(blocks(path.read_text()))
    head = []
    text = path.read_text().split("\n")
    for l in text:
        if l.startswith("--"):
            head.append(l)
        else:
            break
    local = {}
    whole = path.read_text()
    inv, ans, helpers, left = [], [], [], []
    for comment, sig, unfolding, clauses in decls:
        m = re.match(rf"((?:abbrev |unfoldable |pub )*)({NAME})\s*:\s*tie\.({NAME})(.*)", sig, re.S)
        if m and m[3].startswith(("invariant", "decreases")):
            kind, _, loop = m[3].partition("-")
            entry = names.loops.get(flat(loop)) or (next(iter(names.loops.values())) if len(names.loops) == 1 else None)
            if not entry:
                left.append(f"loop {m[3]}")
                continue
            new, live, changed = entry
            cl = clauses[0]
            lhs, _, rhs = cl.partition("=")
            params = lhs.split()[1:]
            table = {}
            for i, v in enumerate(live):
                if i < len(params):
                    table[params[i]] = ("l.initial." if i < len(changed) and changed[i] else "l.") + v
            rest = [v for i, v in enumerate(live) if i < len(changed) and changed[i]]
            for p, v in zip(params[len(params) - len(rest):], rest):
                table[p] = "l." + v
            if len(params) < len(live) + len(rest):
                left.append(f"{m[3]}: {params} for {live} {changed}")
            rhs = re.sub(r"(?<![\w.'₀-₉-])([\w'₀-₉-]+)(?![\w'₀-₉-])", lambda t: table.get(t[1], t[1]), rhs)
            inv.append((comment, f"abbrev pub {kind}-{new} : goal.{kind}-{new}", unfolding, f"{kind}-{new} l ={rhs}"))
            local[m[2]] = f"{kind}-{new}"
        elif m and m[3].startswith("Need-"):
            new = names.need(m[2], m[3][5:])
            body = clauses[0] if clauses else ""
            lhs, _, rhs = body.partition("=")
            local[m[2]] = new
            if rhs.strip() == "search rules" and not re.search(rf"(?<![\w.'-]){re.escape(m[2])}(?![\w'-])", whole.split("tie.close")[0].replace(sig, "").replace(body, "")):
                continue
            if new is None:
                left.append(f"goal {m[2]} of {m[3]}")
                new = m[2]
            args = [a for a in lhs.split()[1:] if a != "κs"] or ["c"]
            ans.append((comment, f"pub {new} : goal.{new}", unfolding, f"{new} {' '.join(args)} ={rhs}", clauses[1:]))
        elif re.match(rf"pub {NAME} : .*statement", sig):
            continue
        else:
            sig = re.sub(rf"tie\.({NAME})", lambda m: "goal." + names.places.get(flat(m[1]), m[1]), sig)
            helpers.append((comment, sig, unfolding, clauses))
    def renamed(body):
        for a, b in local.items():
            if b and a != b and len(a) > 2:
                body = re.sub(rf"(?<![\w.'-]){re.escape(a)}(?![\w'-])", b, body)
        return body

    ans = [(c, s, u, b[: b.index("=")] + renamed(b[b.index("=") :]), [renamed(x) for x in more]) for c, s, u, b, more in ans]
    # A helper over the facts of a place is written out, since each place has facts of its own.
    macros, others = {}, []
    for h in helpers:
        m = re.match(rf"({NAME}) : (?:{{[^}}]*}} )?\(({NAME}) : (?:goal|tie)\.", h[1])
        if m and len(h[3]) == 1 and (v := re.match(rf"{re.escape(m[1])} ({NAME})\s*=", h[3][0])):
            text = re.sub(rf"(?<![\w.'-]){re.escape(v[1])}(?=\.)", "c", re.sub(r"\s*\n\s*", " ", h[3][0].split("=", 1)[1].strip()))
            macros[m[1]] = ("(" + text + ")", h[2].split()[1:])
        else:
            others.append(h)

    def written(body, opened):
        for _ in range(20):
            before = body
            for name, (text, opens) in macros.items():
                new = re.sub(rf"\(?(?<![\w.'-]){re.escape(name)} (?:c(?:\.before)*(?![\w.]))\)?" if False else rf"(?<![\w.'-]){re.escape(name)} c(?:\.before)*(?![\w.])", lambda m: text, body)
                if new != body:
                    opened.update(opens)
                    body = new
            if body == before:
                return body
        return body

    done = []
    for c, s, u, b, more in ans:
        opened = set()
        b = written(b, opened)
        names_open = list(dict.fromkeys(u.split()[1:] + sorted(opened)))
        done.append((c, s, "unfolding " + " ".join(names_open) if names_open else "", b, more))
    return imports, head, inv, done, others, left


def show(it):
    return "\n".join(x for x in ["\n".join(it[0]), it[1], it[2], it[3], *(it[4] if len(it) > 4 else [])] if x)


def main():
    crate, file, wanted = sys.argv[1], sys.argv[2], sys.argv[3:]
    table = json.load(open(file))
    root = top / "crates" / crate / "proofs"
    for path in sorted(root.glob("**/Proof.antt")):
        where = ".".join(path.parent.relative_to(root).parts)
        if wanted and where not in wanted:
            continue
        d = table.get(f"Rattle-{crate}-proofs.{where}.Lts")
        if d is None:
            print(f"{where}: no names")
            continue
        names = Names(d)
        imports, head, inv, ans, helpers, left = convert(path, names, crate, where)
        keep = [i for i in imports if not re.search(r"\.(Tie|Statement)\b", i)]
        def used(items):
            body = "\n".join(show(i) if len(i) != 4 or isinstance(i[3], str) else "\n".join(["\n".join(i[0]), i[1], i[2], *i[3]]) for i in items)
            out = []
            for i in keep:
                m = re.match(r"(use [^{]*\{)(.*)\}(.*)$", i, re.S)
                if not m:
                    out.append(i)
                    continue
                ns = [n.strip() for n in m[2].split(",")]
                kept = []
                for n in ns:
                    core = n.split(" as ")[-1]
                    piece = core.strip("◌").split("◌")[0] if "◌" in core else core
                    if re.search(rf"(?<![\w'-]){re.escape(piece)}(?![\w'₀-₉-])" if re.match(r"[\w]", piece) else re.escape(piece), body):
                        kept.append(n)
                if kept:
                    out.append(m[1] + ", ".join(kept) + "}" + m[3])
            return out
        if inv:
            invs = inv
            (path.parent / "Invariants.antt").write_text("\n".join(used(invs) + [f"use Rattle.{crate}.proofs.{where}.Given as goal"]) + "\n\n" + "\n\n".join(show(i) for i in invs) + "\n")
        if ans or helpers:
            anss = [(c, s, u, paths(b, names, left), [paths(x, names, left) for x in more]) for c, s, u, b, more in ans]
            hs = [("\n".join(c), paths(s, names, left), u, paths("\n".join(cl), names, left)) for c, s, u, cl in helpers]
            htext = "\n\n".join("\n".join(x for x in h if x) for h in hs)
            use = used(anss + [([], htext, "", "")])
            (path.parent / "Answers.antt").write_text("\n".join(use + [f"use Rattle.{crate}.proofs.{where}.Goals as goal"]) + "\n\n" + (htext + "\n\n" if htext else "") + "\n\n".join(show(i) for i in anss) + "\n")
        path.unlink()
        for l in left:
            print(f"{where}: left: {l}")


if __name__ == "__main__":
    sys.exit(main())
