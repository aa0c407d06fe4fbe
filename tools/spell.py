#!/usr/bin/env python3
"""Brings the names of the repository's own definitions to snake case, once, after port.py.

usage: python3 tools/spell.py [--list]     at the top of the repository; --list prints the table and writes nothing

A name that specs/ or proofs/ declare and that has a capital inside gets underscores there: `tableOk` becomes `table_ok`, the lemma
`first-leastTo` becomes `first-least_to`. A definition, an example or a statement of specs/ and a record's field lose their dashes too:
`same-cost` becomes `same_cost`. A lemma of proofs/ keeps the dash that joins two names. Names of src/, of the kit, of types and modules,
and those that a check makes for a function's goals stay. It turns .antt and .rt files, must-fail edits, and code spans of pages.
"""
import collections
import pathlib
import re
import sys

WORD = r"[^\s(){}\[\].;,@\"«»`:|]+"
HEAD = re.compile(rf"^([ \t]*)(?:(?:pub|abbrev|unfoldable)[ \t]+)*({WORD})(?:[ \t]+\{{[^{{}}\n]*\}}|[ \t]+\([^()\n]*\))*[ \t]*:(?![:=])")
BINDER = re.compile(rf"[({{]((?:{WORD}[ \t]+)+):")
LET = re.compile(rf"\blet[ \t]+({WORD})[ \t]*(?::|=)")
RECORD = re.compile(r"^([ \t]*)(?:(?:pub|abbrev)[ \t]+)*record\b")
USE = re.compile(r"(?:ghost )?use (Rattle\.(\w+)\.[\w.'+-]*|[\w.'+-]+)\.\{([^}]*)\}")
# these would fall together with another name of the repository's own
OTHER = {"as-built": "is_built", "samples-in": "samples_inside", "tooFar": "too_far_cases", "in-words": "in-words"}
# lemmas whose dash port.py took, and whose name would fall together with a definition's
LEMMAS = {"after_none": "after-none", "in_four": "in-four", "top_count": "top-count", "value_line": "value-line", "no_record": "no-record"}


def snake(name, dashes):
    if name in OTHER:
        return OTHER[name]
    name = re.sub(r"(?<=[a-z0-9])([A-Z]+)", lambda m: "_" + m[1].lower(), name)
    return name.replace("-", "_") if dashes else name


def heads(text):
    """Each name that the file declares, with whether it is a field of a record."""
    inside = None
    for line in text.split("\n"):
        if inside is not None and line.strip() and len(line) - len(line.lstrip()) <= inside:
            inside = None
        m = RECORD.match(line)
        if m:
            inside = len(m[1])
            continue
        m = HEAD.match(line)
        if m:
            yield m[2], inside is not None


def main():
    root = pathlib.Path(".")
    crates = {p.name for p in root.glob("crates/*") if p.is_dir()}
    antt = sorted(root.glob("crates/*/specs/**/*.antt")) + sorted(root.glob("crates/*/proofs/**/*.antt"))
    own, dashed, kit, made, words = set(), set(), set(), set(), set()
    laws = collections.defaultdict(set)
    for p in antt:
        code = re.sub(r"(?m)(^|(?<=\s))--.*$", "", p.read_text())
        words |= set(re.findall(WORD, code))
        for m in USE.finditer(code):
            if m[2] not in crates:
                kit |= {w.strip().split(" as ")[0].strip() for w in m[3].split(",")}
        if "/proofs/" in str(p) and p.parent.name != "proofs":  # a function's own proof
            made |= set(re.findall(rf"\.({WORD})", code)) | {n for n, _ in heads(code)}
            continue
        for n, field in heads(code):
            own.add(n)
            laws[n].add(str(p))
            if field or "/specs/" in str(p):
                dashed.add(n)
        for m in BINDER.finditer(code):
            own.update(m[1].split())
        own.update(LET.findall(code))
    wanted = {n for n in own if re.match(r"[a-z]", n) and snake(n, n in dashed) != n and n not in kit}
    table = {n: snake(n, n in dashed) for n in wanted}
    if "--list" in sys.argv:
        print("also in goals:", sorted(set(table) & made))
        turned = collections.defaultdict(set)
        for n in words | set(table):
            turned[table.get(n, n)].add(n)
        print("fall together:")
        for k, v in sorted(turned.items()):
            if len(v) > 1:
                print("  ", k, {n: sorted(laws[n]) for n in v})
        print(len(table), "names")
        return
    pattern = re.compile(rf"(?<![^\s(){{}}\[\].;,@\"«»`:|])({WORD})")

    def turn(text):
        return pattern.sub(lambda m: table.get(m[1], m[1]), text)

    def lemmas(text):
        """The names of LEMMAS that the file declares or takes from a file of laws."""
        named = {n for n, _ in heads(text)}
        for m in USE.finditer(text):
            if m[1].split(".")[-2] in ("proofs", "specs") and m[1].endswith("Laws"):
                named |= {w.strip() for w in m[3].split(",")}
        return {n: LEMMAS[n] for n in named & set(LEMMAS)}

    def behind(text):
        """Pages and edits, which port.py does not turn: its own respellings too, where the old name is gone and the new one is there."""

        def name(w):
            if w in there or not re.match(r"[a-z]", w):
                return w
            return next((n for n in (snake(w, False), snake(w, True)) if n in there), w)

        return pattern.sub(lambda m: name(m[1]), turn(text))

    for p in antt + sorted(root.glob("crates/*/src/**/*.rt")):
        text = p.read_text()
        new = text
        for n, to in (lemmas(text) if p.suffix == ".antt" else {}).items():
            new = re.sub(rf"(?<![^\s(){{}}\[\];,@`:|]){n}(?![^\s(){{}}\[\].;,@`:|])(?!\.)", to, new)
        new = turn(new)
        if new != text:
            p.write_text(new)
    there = {w for p in antt for w in re.findall(WORD, re.sub(r"(?m)(^|(?<=\s))--.*$", "", p.read_text()))}
    for p in sorted(root.glob("crates/*/must-fail/*.edit")):
        p.write_text(behind(p.read_text()))
    for p in [root / "README.md", *sorted(root.glob("docs/*.md")), *sorted(root.glob("outside/README.md"))]:
        p.write_text(re.sub(r"`[^`\n]+`|(?m:^ {4}.*$)", lambda m: behind(m[0]), p.read_text()))


main()
