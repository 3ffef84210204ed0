#!/usr/bin/env python3
"""Check that the words of refusals are everywhere those of docs/REFUSALS.md, the one source. Exits 1 and says which differ.

Held against the page: the definition and the code of what refshow writes, the header's constants, the Rust error (its variants,
their documentation, numbers and texts) and the C example. What refshow really writes is held against it by tests/programs.
"""
import pathlib, re, sys

root = pathlib.Path(__file__).resolve().parent.parent
wrong = []


def read(path):
    return (root / path).read_text()


def same(path, what, number, seen, want):
    if seen != want:
        wrong.append(f"{path}: {what} of {number} is {seen!r}, not {want!r}")


def begins(path, what, number, seen, want):
    """The words stand alone, or something more is said behind a stop."""
    if not re.match(re.escape(want) + r"($|[.:;])", seen):
        wrong.append(f"{path}: {what} of {number} is {seen!r}, not {want!r}")


def camel(constant):
    return "".join(word.capitalize() for word in constant.split("_"))


def numbered(pattern, text):
    """What the pattern finds, number -> the other group."""
    return {int(m["n"]): m["text"] for m in re.finditer(pattern, text)}


def main():
    page = {int(n): (means, look) for n, means, look in re.findall(r"^\| (\d+) \| ([^|]+) \| ([^|]+) \|$", read("docs/REFUSALS.md"), re.M)}
    if sorted(page) != list(range(1, len(page) + 1)):
        wrong.append(f"docs/REFUSALS.md: the numbers are {sorted(page)}")
    lines = re.findall(r'^    ∷ bytes "(.*)"$', read("crates/text/specs/Refshow.antt"), re.M)
    code = numbered(r'(?P<n>\d+) => \{\s*b"(?P<text>[^"]*)"', read("crates/text/src/refshow.rt"))
    header = read("include/cosvint.h").split("The numbers that the calls answer")[1].split("/* No refusal")[0]
    constants = {int(n): (name, text) for name, n, text in re.findall(r"#define COSVINT_(\w+) (\d+) +/\* (.*?) \*/", header)}
    rust = read("bindings/rust/src/error.rs")
    documented = {int(n): (text, name) for n, text, name in re.findall(r"/// (\d+): (.*)\n    (\w+)", rust)}
    meanings = re.findall(r'^    "(.*)",$', rust.split("const MEANINGS")[1].split("];")[0], re.M)
    numbers = numbered(r"Error::(?P<text>\w+)(?:\(_\))? => (?P<n>\d+),", rust)
    made = numbered(r"(?P<n>\d+) => Error::(?P<text>\w+)", rust)
    example = dict(re.findall(r'\[COSVINT_(\w+)\] = "(a .*|the .*|symbolic .*)"', read("bindings/c/profile.c")))
    for path, found in (("crates/text/specs/Refshow.antt", lines), ("crates/text/src/refshow.rt", code), ("include/cosvint.h", constants),
                        ("bindings/rust/src/error.rs", documented), ("bindings/rust/src/error.rs", meanings),
                        ("bindings/rust/src/error.rs", numbers), ("bindings/c/profile.c", example)):
        if len(found) != len(page):
            wrong.append(f"{path}: {len(found)} refusals, and the page has {len(page)}")
    if not wrong:
        for n, (means, look) in page.items():
            whole, (constant, comment), (said, variant) = f"{means}; look at {look}", constants[n], documented[n]
            same("crates/text/specs/Refshow.antt", "the text", n, lines[n - 1], whole)
            same("crates/text/src/refshow.rt", "the text", n, code[n], whole)
            begins("include/cosvint.h", "the comment", n, comment, means)
            begins("bindings/rust/src/error.rs", "the documentation", n, said, means)
            same("bindings/rust/src/error.rs", "the meaning", n, meanings[n - 1], means)
            same("bindings/rust/src/error.rs", "the variant", n, variant, camel(constant))
            same("bindings/rust/src/error.rs", "the number", n, numbers[n], variant)
            same("bindings/rust/src/error.rs", "what is made", n, made.get(n), variant)
            same("bindings/c/profile.c", "the meaning", n, example.get(constant), means)
    for line in wrong:
        print(line)
    print(f"docs/REFUSALS.md: the words of {len(page)} refusals, {len(wrong)} differences")
    return 1 if wrong or not page else 0


sys.exit(main())
