#!/usr/bin/env python3
"""Brings the names that this repository's own antt files declare to the library's spelling, once, after the kit's port.py.

usage: python3 tools/spelling.py [--list]

A definition, a lemma, a field and a constructor are in snake case (`siteAt` becomes `site_at`, `run-is-sound` becomes `run_is_sound`).
A dash stays where it joins the names of two definitions, as in `count-all_of`, but in no field. Types keep their capitals. A lemma that would meet another name gets `_lem`.
In edits a projection is written tight. Turned are the antt files, the clauses and ghost imports of .rt files, the lines old: and new: of must-fail edits, the code spans of pages, and docs/NAMES.txt.
Strings, the names of functions of src/ and of what C calls, inputs and outputs stay. --list prints the table and turns nothing.
"""
import collections
import glob
import os
import re
import sys

WORD = r"""[^\s(){}.;,@"«»\x60]+"""
DECLARED = re.compile(
    r"^\s*((?:abbrev |unfoldable |pub |data |record |ruleset |mutual )*)(" + WORD + r"(?: " + WORD + r")*?)(?: \{[^{}\n]*\}| \([^()]*\))* :(?: |$)"
)
# names that are bound in a body and not declared on a line of their own
LOCAL = ["atMemory", "noText", "modelHolds", "ofLine", "sentBack"]
# names of ours that the kit's script turned in code; pages and edits still have the older spelling
BY_PORT = (
    "T-true all-hold all-quiet all-read all-stay allBelow allOf and-l and-r andThen answerIn answerOf any-entry array-at array-same arrive-room "
    "as-many at-most back-last back-more below-all below-at below-set both-ways by-cond by-digits by-names by-number by-way bytes-most bytes-on "
    "bytesOf choiceOf count-most count-same digits-last digits-more drain-kept each-all each-append each-map each-none each-placed each-same "
    "each-take each-turn ends-by enteredAt entriesAt entryAt eqb-comm factsOf first-alike first-below first-next first-part first-passes first- "
    "past firstAt firstOf flat-append formOf found-here freshOf from-end from-step goes-back has-room in-four in-two inRange is-digit isAt isMove "
    "isNone kindAt kindOf left-is leftOf length-at length-merged length-more length-removed line-of line-ok lineAt lineOf linesOf listedAt mem-up "
    "memory-kept moveOf name-below nameAt nameOf namedAt namedBy namedIn ne-of no-answer no-length no-room noMore noSite none-each none-found "
    "none-in none-left none-more none-out none-written number-of numberOf numbers-fit of-entry one-answer one-below one-more one-of or-l or-r or- "
    "yes orElse out-of-order outAt own-open own-put passed-none passed-start pastOf placeOf put-on put-same putAt quiet-all quiet-next quiet-none "
    "read-above read-back read-more read-none read-off read-small readStep refused-all row-cut row-first rowOf rowsOf run-sound same-line same- "
    "out same-test sameNumbers second-fits set-at set-same sideOf site-left small-bytes so-far soundIs step-back step-kept step-left stepOf "
    "steps-back sum-both sum-less sum-more sum-past sum-same take-none toList two-bytes upFrom valueOf waitsFor widthOf withOut wordAt wordOf "
    "write-keeps write-kept writes-kept written-at written-read "
).split()
# a function of the library that lemmas of ours are named after
LIBRARY = {"length", "take", "drop", "get_or", "append", "eqb", "cond", "not", "leb", "ltb", "flat_map", "map", "replicate"}


def sources():
    for p in sorted(glob.glob("crates/**/*", recursive=True)):
        if os.path.isfile(p) and "/out/" not in p and p.endswith((".antt", ".rt", ".edit")):
            yield p


def read(p):
    with open(p, encoding="utf-8") as f:
        return f.read()


def declared():
    """Each name that a file of specs/ or proofs/ declares, with whether a file of specs/ does; a function's own Proof.antt names goals alone."""
    names = collections.defaultdict(bool)
    for p in sources():
        if not p.endswith(".antt") or re.search(r"/proofs/.+/(Proof|Answers|Invariants)\.antt$", p):
            continue
        for line in read(p).splitlines():
            if line.lstrip().startswith("--"):
                continue
            m = DECLARED.match(line)
            if m and not re.search(r"[=λ→(]", m.group(2)):
                for n in m.group(2).split():
                    names[n] |= "/specs/" in p
    return names


def words(name):
    return re.sub(r"(?<=[a-z0-9])([A-Z])", lambda m: "_" + m[1].lower(), name)


def fields():
    """The names of the fields of the records of specs/."""
    return {m[1] for p in sources() if "/specs/" in p for m in re.finditer(r"(?m)^  pub (" + WORD + r") :", read(p))}


def respelled(name, names, fields):
    if name.startswith("◌") or not re.search(r"[a-z0-9][A-Z]|-", name) or "-" not in name and name[0].isupper():
        return name
    parts = [words(p) if p[0].islower() else p for p in name.split("-")]
    functions = LIBRARY | {words(n) for n in names if names[n]}
    for cut in range(len(parts) - 1, 0, -1) if name not in fields else ():
        left, right = "_".join(parts[:cut]), "_".join(parts[cut:])
        if left in functions and right in functions:
            return left + "-" + right
    return "_".join(parts)


def table():
    names, of_records = declared(), fields()
    rows = {n: respelled(n, names, of_records) for n in [*names, *LOCAL]}
    taken = collections.defaultdict(list)
    for n in sorted(rows):
        taken[rows[n]].append(n)
    for new, olds in taken.items():
        first, *others = sorted(olds, key=lambda n: (not names[n], "-" in n, n))
        for old in others:
            print(f"spelling: {first} and {old} would both be {new}: {old} gets _lem", file=sys.stderr)
            rows[old] = new + "_lem"
    return {o: n for o, n in rows.items() if o != n}


def turned(text, rows):
    return re.sub(WORD, lambda m: rows.get(m[0], m[0]), text)


def outside_strings(text, rows, comment):
    """Turns code outside strings; of a comment its code spans alone."""
    out = []
    for line in text.splitlines(keepends=True):
        m = re.search(r"(^|\s)" + comment + r"(\s|$)", line)
        code, rest = (line[: m.start()], line[m.start() :]) if m else (line, "")
        parts = re.split(r'("(?:\\.|[^"\\])*")', code)
        code = "".join(p if i % 2 else turned(p, rows) for i, p in enumerate(parts))
        out.append(code + spans(rest, rows))
    return "".join(out)


def spans(text, rows):
    return re.sub(r"\x60[^\x60\n]+\x60", lambda m: turned(m[0], rows), text)


def page(text, rows):
    parts = re.split(r"(^\x60\x60\x60.*?^\x60\x60\x60)", text, flags=re.S | re.M)
    return "".join(turned(p, rows) if i % 2 else spans(p, rows) for i, p in enumerate(parts))


def tight(line):
    """A projection is written tight: `(m .site)` becomes `m.site`."""
    line = re.sub(r"([\w'])((?: \.[a-z][\w-]*)+)", lambda m: m[1] + m[2].replace(" ", ""), line)
    return re.sub(r"(?<=[ (])\(([\w']+(?:\.[\w-]+)+)\)", r"\1", line)


def edit(text, rows):
    lines = text.splitlines(keepends=True)
    return "".join(tight(outside_strings(l, rows, "--")) if l.startswith(("old:", "new:")) else l for l in lines)


def main(argv):
    rows = table()
    older = rows | {n: rows.get(words(n).replace("-", "_"), words(n).replace("-", "_")) for n in BY_PORT} | {"_" + m + "_": "◌" + m + "◌" for m in "≡+-*≤<∷"}
    if argv == ["--list"]:
        for o, n in sorted(rows.items()):
            print(f"{o}\t{n}")
        return 0
    for p in sources():
        text = read(p)
        meets = sorted(
            f"{o} and {rows[o]}"
            for o in set(re.findall(WORD, text)) & set(rows)
            if p.endswith(".antt") and re.search(r"(?<![^\s(){}.;,@\"«»\x60])" + re.escape(rows[o]) + r"(?![^\s(){}.;,@\"«»\x60])", text)
        )
        if meets:
            print(f"spelling: {p} has both {'; '.join(meets)}", file=sys.stderr)
        new = outside_strings(text, rows, "--") if p.endswith(".antt") else edit(text, older) if p.endswith(".edit") else outside_strings(text, rows, "//")
        if new != text:
            with open(p, "w", encoding="utf-8") as f:
                f.write(new)
    for p in ["README.md", *sorted(glob.glob("docs/**/*.md", recursive=True)), "docs/NAMES.txt"]:
        if os.path.exists(p):
            text = read(p)
            new = turned(text, older) if p.endswith(".txt") else page(text, older)
            if new != text:
                with open(p, "w", encoding="utf-8") as f:
                    f.write(new)
    return 0


if __name__ == "__main__":
    raise SystemExit(main(sys.argv[1:]))
