#!/usr/bin/env python3
"""Check what docs/TRACE.md cites: every name exists, and every function or type of the code is reached by a shipped call.

Names stand in backquotes in one of these forms:
  CRATE/specs/FILE.NAME, CRATE/proofs/FILE.NAME   a definition, a field, a constructor or a law
  CRATE::MODULE::NAME, CRATE::MODULE::TYPE::NAME  a function, a type or a constant of the code; a function of a type, where its `impl` stands
  CRATE::MODULE::TYPE+TRAIT::NAME                 a function of a trait, TYPE+TRAIT as the prover writes it: U32FromRefusal::from
  CRATE/must-fail/NAME, CRATE/edits/NAME          a wrong program that the check must refuse

Shipped are the archive's exported calls and the programs reflist and refshow. Code that only replay reaches is cited with "replay" behind
it, and code that nothing reaches with "no call goes through it". Besides: no proof of a crate above names unfolds a definition of
names, and only the modules COMPUTING compute with all definitions. Exits 1 and says what is wrong.
"""
import pathlib, re, sys

root = pathlib.Path(__file__).resolve().parent.parent
crates = root / "crates"
COMPUTING = ("names/Rules", "names/Tried", "blocks/Damage", *(f"claims/{m}" for m in ("Decide", "Examples", "ListSearchNeeded", "Needed", "Pair", "Surprises", "Table")))
ITEM = r'^\s*(?:pub(?:\(crate\))? )?(?:extern "C" )?(fn|struct|enum|const|type) (\w+)'
IMPL = r"impl(?:<[^>]*>)? (?:([\w:]+)(?:<(.*)>)? for )?(.*?) (?:where .*)?\{"


def declares(text, name):
    n = re.escape(name)
    signature = rf"^\s*(?:(?:unfoldable|abbrev|pub) )*(?:[^\s:=(]+ )*{n}(?: [^\s:=(]+)*(?: \{{[^}}]*\}})? :"
    kind = rf"^\s*(?:pub )?(?:data|record) {n}(?: |$)"
    return re.search(signature, text, re.M) or re.search(kind, text, re.M)


def missing(cited):
    """What is wrong with a cited name; None if nothing is, and "" if it is no name of these forms."""
    if m := re.fullmatch(r"(\w+)/(specs|proofs)/([\w/]+)\.(\S+)", cited):
        path = crates / m[1] / m[2] / (m[3] + ".antt")
        if not path.is_file():
            return f"no file {path.relative_to(root)}"
        return None if declares(path.read_text(), m[4]) else f"{path.relative_to(root)} declares no {m[4]}"
    if m := re.fullmatch(r"(\w+)/(must-fail|edits)/(\w+)", cited):
        path = crates / m[1] / m[2] / (m[3] + ".edit")
        return None if path.is_file() else f"no file {path.relative_to(root)}"
    if re.fullmatch(r"\w+(?:::\w+)+", cited):
        return None if cited in items() else "the code has no such item"
    return "no such form" if re.fullmatch(r"\w+/[\w-]+/[A-Z]\w*\.\S+|\w+/(edits?|must-?fails?)/\w+", cited) else ""


def in_words(a_type):
    """A type as the prover writes it within a name: `&[u8]` as RefSliceU8."""
    a_type = re.sub(r"'\w+\s*|<>|<'_>", "", a_type).replace("&mut ", "RefMut ").replace("&", "Ref ")
    a_type = re.sub(r"\[([^\[\];]*);[^\]]*\]", r"Array \1", a_type).replace("[", "Slice ")
    return "".join(word[:1].upper() + word[1:] for word in re.findall(r"\w+(?!\w*::)", a_type))


def items(found={}):
    """The items of the code, path -> (the names in its text, those of methods behind a dot; its module's path; the first line of the `impl` that it stands in)."""
    if found:
        return found
    for file in sorted(crates.glob("*/src/**/*.rt")):
        crate = file.relative_to(crates).parts[0]
        module = crate if file.stem in ("lib", "main") else f"{crate}::{file.stem}"
        path, owner, head = None, "", None
        for line in file.read_text().split("\n"):
            if m := re.match(IMPL, line):
                of_trait = in_words(m[3]) + m[1].rpartition("::")[2] + in_words(m[2] or "") if m[1] else None
                path, owner, head = None, "::" + (of_trait or re.match(r"\w+", m[3])[0]), m
            elif line == "}":
                path, owner, head = None, "", None
            if (m := re.match(ITEM, line)) and not (head and m[1] == "type"):
                path = f"{module}{owner}::{m[2]}"
                found[path] = (set(), module, head)
            if path and not re.match(r"\s*(//|#|requires|ensures|ghost|(?:pub )?use )", line):
                found[path][0].update(re.findall(r"(?:\w+::)*\w+|\.\w+(?=\()", line.split("//")[0]))
    return found


def named(tree, base=""):
    """The paths that the inside of a `use` names: `a::b`, `{a, b::{c, d as e}}`; as (name, path)."""
    depth, part, parts = 0, "", []
    for c in tree:
        depth += {"{": 1, "}": -1}.get(c, 0)
        if c == "," and not depth:
            parts.append(part)
            part = ""
        else:
            part += c
    for it in filter(None, (each.strip() for each in [*parts, part])):
        if m := re.fullmatch(r"((?:\w+::)*)\{(.*)\}", it, re.S):
            yield from named(m[2], base + m[1])
        elif m := re.fullmatch(r"((?:\w+::)*\w+)(?: as (\w+))?", it):
            path = (base + m[1]).removesuffix("::self")
            yield m[2] or path.rpartition("::")[2], path


def imports(module):
    """The names that a module uses from elsewhere, name -> path."""
    parts = module.split("::")
    stems = ["lib", "main"] if len(parts) == 1 else [parts[1]]
    text = "".join((crates / parts[0] / "src" / f"{s}.rt").read_text() for s in stems if (crates / parts[0] / "src" / f"{s}.rt").is_file())
    items = (it for tree in re.findall(r"^(?:pub )?use ([^;]+);", text, re.M) for it in named(tree))
    return {name: path.replace("crate::", parts[0] + "::", 1) for name, path in items}


def meant(word, module, known={}):
    """The paths that a name in the text of a module may mean."""
    if module not in known:
        known[module] = imports(module)
    crate = module.split("::")[0]
    first, _, rest = word.partition("::")
    known[module].setdefault("crate", crate)
    path = "::".join([known[module].get(first, first if (crates / first).is_dir() else f"{module}::{first}"), *filter(None, [rest])])
    return [path, path.rpartition("::")[0], f"{crate}::{word}"]  # itself, or the type of which it is a function or a variant


def reached(roots):
    """The items that the roots go through: named in their text, directly or by others. A function of an `impl` is gone through where the types that
    its first line names are, and it is called by its name; a trait's, which an operator may call, by the types alone."""
    code, found, called, todo = items(), set(), set(), list(roots)
    while todo:
        while todo:
            path = todo.pop()
            if path in found or path not in code:
                continue
            found.add(path)
            words, module, _ = code[path]
            for word in words:
                last = word.replace(".", "::").rpartition("::")[2]
                if word[0] == "." or word.startswith("Self::"):  # of whatever type: the text does not say it
                    called.add(last)
                else:
                    todo += meant(word, module)
        for path, (_, module, head) in code.items():
            if path not in found and head and (head[1] or path.rpartition("::")[2] in called):
                types = {it for word in re.findall(r"(?:\w+::)*\w+", head[0]) for it in meant(word, module) if it in code}
                todo += [path] if types <= found else []
    return found


def unfolded_above(crate):
    """The proofs of other crates that unfold a definition of this one, and those outside COMPUTING that compute."""
    owned = {name for file in (crates / crate / "specs").glob("*.antt") for name in re.findall(r"^\s*unfoldable (?:pub )?(\S+)", file.read_text(), re.M)}
    for file in sorted(crates.glob("*/src/**/*.rt")):
        for names in re.findall(r"\bunfolding\(([^)]*)\)", file.read_text()):
            for name in re.findall(rf"\b{crate}::specs::\w+::(\w+)", names):
                if name in owned and file.relative_to(crates).parts[0] != crate:
                    yield f"{file.relative_to(root)} unfolds {name} of {crate}"
    for file in sorted(crates.glob("*/proofs/**/*.antt")):
        text = file.read_text()
        parts = file.relative_to(crates).with_suffix("").parts
        if parts[-1] == "Computing":
            continue
        if f"{parts[0]}/{parts[-1]}" not in COMPUTING and re.search(r"^\s*unfolding .*_compute\b", text, re.M):
            yield f"{file.relative_to(root)} computes, and is not among the modules that may"
        if parts[0] == crate:
            continue
        imported = set(re.findall(r"[^\s,{}]+", " ".join(re.findall(rf"^use Rattle\.{crate}\.specs\.[^{{\n]*\{{([^}}]*)\}}", text, re.M))))
        for line in re.findall(r"^\s*unfolding ([^=:()\n]*(?:\n +[^=:()\n]*$)*)", text, re.M):
            for name in sorted(owned & imported & set(line.split())):
                yield f"{file.relative_to(root)} unfolds {name} of {crate}"


def main():
    text = (root / "docs" / "TRACE.md").read_text()
    calls = [path for path in items() if path.startswith("capi_c::cosvint_")]
    shipped = reached([*calls, "reflist::main", "refshow::main"])
    replayed = reached(["replay::main"])
    known, bad = set(), []
    for row in text.split("\n"):
        for cite in re.finditer(r"`([^`\n]+)`", row):
            cited, behind = cite[1], re.split(r"[|;]", row[cite.end() :])[0]
            what = missing(cited)
            if what is None:
                known.add(cited)
                if cited in items() and cited not in shipped:
                    if cited in replayed:
                        what = None if "replay" in behind else "only replay reaches it, which is not said behind it"
                    else:
                        what = None if "no call goes through it" in behind else "nothing that is shipped goes through it"
            if what:
                bad.append(f"{cited}: {what}")
    for line in sorted(set(bad)):
        print("docs/TRACE.md cites", line)
    unfolded = list(unfolded_above("names"))
    for line in unfolded:
        print(line)
    print(f"docs/TRACE.md: {len(known)} names found, {len(set(bad))} wrong; {len(unfolded)} proofs unfold what they may not")
    return 1 if bad or unfolded or not known else 0


sys.exit(main())
