#!/usr/bin/env python3
"""Counts and lists, at a commit, the places of each of the eight points that docs/DESIGN-PASS.md goes through.

usage: python3 tools/places.py [--counts] [COMMIT] [POINT ...], from the top of the checkout

It reads crates/*/src/*.rt and crates/*/proofs/ out of git, so the checkout need not stand at that commit (HEAD unless one is named). A place is printed as
`crate/file:line  text` below its kind; --counts prints the kinds and their counts alone. Functions that stand under #[cfg(test)] are left out.
"""
import collections
import difflib
import itertools
import re
import sys

from sources import NUMBER, closing, facts, load, parts, shape

KIND = r"(?:kind|instruction|step|number|answered|end|quiet|trip)"
TRAITS = {"from", "try_from", "into", "default", "fmt", "eq", "cmp", "partial_cmp", "clone"}


def values(functions, types, _files):
    """1. Own enums like Option or Result and where they are taken apart; flags beside a value; numbers for kinds."""
    own = [t for t in types if t.word == "enum" and len(t.fields) in (2, 3) and any(re.search("[({]", v) for v in t.fields)]
    names = "|".join(t.name for t in own) or "-"
    yield from (("own enum like Option or Result", t.place, f"{t.name} {{ {', '.join(t.fields)} }}") for t in own)
    for t in types:
        flags, kinds = [x for x in t.fields if x.endswith(": bool")], [x for x in t.fields if re.match(f"{KIND}: {NUMBER}", x)]
        if t.word == "struct" and 0 < len(flags) < len(t.fields):
            yield "flag beside a value, in a struct", t.place, f"{t.name}: {', '.join(flags)}"
        if kinds:
            yield "number for a kind, in a struct", t.place, f"{t.name}: {', '.join(kinds)}"
    places = {f.name: i for f in functions for i, (n, t) in enumerate(f.params) if re.fullmatch(KIND, n) and re.fullmatch(NUMBER, t) and n != "end"}
    for f in functions:
        for m in re.finditer(rf"let (?:{names})::|match [^{{]*\{{\s*(?:{names})::", f.body):
            yield "own enum taken apart by let-else or match", *f.at(m.start())
        if "bool" in f.types:
            yield "flag beside a value, as a parameter", f.place, f"{f.name}: {', '.join(n for n, t in f.params if t == 'bool')}"
        for m in re.finditer(r"let mut \w+ = false;", f.body):
            yield "flag kept through a loop", *f.at(m.start())
        kinds = [n for n, t in f.params if t in ("u8", "u32", "u64") and (re.fullmatch(KIND, n) or len(set(re.findall(rf"\b{n} == (\d)", f.body))) > 2)]
        if kinds:
            yield "number for a kind, as a parameter", f.place, f"{f.name}: {', '.join(kinds)}"
        named = "|".join(kinds + [r"\w+\.kind", "kind"] + re.findall(r"let (\w+) = \w+\.kind;", f.body))
        tests = re.findall(rf"(?<![\w.])(?:{named}) (?:==|!=|<|<=) \d+|\d+ (?:<|<=) (?:{named})\b|match (?:{named}) \{{", f.body)
        if tests:
            yield "kind compared with numbers", f.place, f"{f.name}: {', '.join(tests)}"
        given = re.findall(r"\bkind: \d+", f.body)
        for m in re.finditer(r"\b(\w+)\(", f.body):
            given += [m[0] + x + ")" for x in parts(f.body[m.end() : closing(f.body, m.end() - 1)], ",")[places.get(m[1], 99) :][:1] if x.isdigit()]
        if given:
            yield "kind given as a number", f.place, f"{f.name}: {', '.join(given)}"


def twins(functions, types, _files):
    """2. Groups of functions with one body after renaming, or nearly (85 signs in 100), or one head in two crates; and of types with one shape."""
    functions = [f for f in functions if f.name != "main"]
    group = list(range(len(functions)))
    exact, near = [shape(f.body, True) for f in functions], [shape(f.body, False) for f in functions]
    for i, j in itertools.combinations(range(len(functions)), 2):
        f, g, (low, high) = functions[i], functions[j], sorted((len(near[i]), len(near[j])))
        same = low >= 12 and exact[i] == exact[j] or f.params and (f.name, f.params) == (g.name, g.params)
        if not same and low >= 15 and high < 1.4 * low:
            like = difflib.SequenceMatcher(None, near[i], near[j], autojunk=False)
            same = like.quick_ratio() > 0.85 and like.ratio() > 0.85
        if same and group[i] != group[j]:
            group = [group[i] if x == group[j] else x for x in group]
    for g in sorted({g for g in group if group.count(g) > 1}, key=group.index):
        members = [f for f, x in zip(functions, group) if x == g]
        yield from ((f"functions like {members[0].name}", f.place, f.name) for f in members)
    shapes = collections.defaultdict(list)
    for t in types:
        if t.word == "struct" and len(t.fields) > 1:
            shapes[tuple(re.sub(r"\d+", "0", re.sub(r"\b[A-Z]\w*", "T", x.split(": ", 1)[1])) for x in t.fields)].append(t)
    for same in (same for same in shapes.values() if len(same) > 1):
        yield from ((f"types like {same[0].name}", t.place, f"{t.name} {{ {', '.join(t.fields)} }}") for t in same)


def counted(functions, _types, _files):
    """3. Loops that move an index, an offset or a count by hand; and rows of constant indexes, which are loops written out."""
    for f in functions:
        for at, head, body in f.loops():
            if head != "loop " and any(re.search(rf"\b{n} \+= ", body) for n in re.findall(r"[a-z]\w*", head)):
                yield "while that moves its index", *f.at(at)
            elif re.search(r"\w+ \+= |\bat = ", body):
                yield "loop that keeps an offset or a count", *f.at(at)
        rows = collections.defaultdict(set)
        for name, index in re.findall(r"([\w.]+)\[(?:at \+ )?(\d)\]", f.body):
            rows[name].add(index)
        if any(len(r) > 2 for r in rows.values()):
            yield "row of constant indexes", f.place, f"{f.name}: {', '.join(n for n, r in rows.items() if len(r) > 2)}"


def by_hand(functions, types, _files):
    """4. Copying, equality, Default, conversion, methods of numbers and printing, written by hand."""
    own = {t.name for t in types}
    for f in (f for f in functions if f.name.split("::")[-1] not in TRAITS):
        for at, _, body in f.loops():
            if re.search(r"\] (?:=|==|!=) \w+\[|let (\w+) = [\w.]+\[[^\]]*\];\s*[\w.]+\[[^\]]*\] = \1;", body):
                yield "loop that copies or compares", *f.at(at)
        if f.result == "bool" and " == 0" in f.body and not re.search(r"[<|]|while ", f.body):
            yield "equality with nothing, field by field", f.place, f.name
        if not f.params and f.result in own and re.match(rf"\s*{f.result} \{{[^(]*$", f.body):
            yield "nothing of a type, a Default", f.place, f.name
        many = sum(t in own for t in f.types) > 1 or f.result == "bool" and len(f.params) > 1
        plain = f.params and not any("&" in t or t == "System" for t in f.types)
        if plain and not many and f.result not in f.types and (f.name.endswith("_of") or re.match(rf"\s*(match|let \w+::|{re.escape(f.result)} \{{)", f.body)):
            yield "conversion of one type to another", f.place, f"{f.name}: {', '.join(f.types)} to {f.result}"
        if plain and re.fullmatch(NUMBER, f.result) and all(re.fullmatch(f"{NUMBER}|bool", t) for t in f.types) and re.match(r"\s*(let [^;]*;\s*)?if ", f.body):
            if f.name + "(" not in f.body and not f.name.endswith("_of"):
                yield "method of numbers (min, saturating_sub, From)", f.place, f.name
        written = f.file.startswith(("words/", "listing/")) and f.types[:1] == ["&[u8]"] and not [*f.loops()]
        if written or re.search(r"print(?:ln)?[!(]|b\"[ a-z]", f.body):
            yield "printing", f.place, f.name


def together(functions, _types, _files):
    """5. Facts that stand in the contracts of three functions or more; parameters that stand together in three or more, each in one group."""
    where = collections.defaultdict(dict)
    for f in functions:
        for general, fact in facts(f):
            where[general].setdefault(f.place, f"{f.name}: {fact}")
    for general, held in sorted(where.items(), key=lambda x: -len(x[1])):
        if len(held) > 2:
            yield from ((f"fact {general}", place, text) for place, text in held.items())
    left = {f: frozenset(f.params) for f in functions}
    while True:
        sets = {a & b for a, b in itertools.combinations(left.values(), 2) if len(a & b) > 1}
        held = {c: [f for f in left if c <= left[f]] for c in sets}
        best = max((c for c in sets if len(held[c]) > 2), key=lambda c: ((len(c) - 1) * len(held[c]), sorted(c)), default=None)
        if not best:
            return
        for f in held[best]:
            left[f] = left[f] - best
            yield f"parameters {', '.join(n for n, t in held[best][0].params if (n, t) in best)}", f.place, f.name


def buffers(functions, types, _files):
    """6. Arrays and slices with a count, an offset or a length beside them; parallel arrays; searches; tables of indices; texts as bytes."""
    def same_length(fields):
        lengths = [re.search(r"; (\w+)\]$", x)[1] for x in fields if re.search(r"; \w+\]$", x)]
        return any(lengths.count(n) > 1 for n in lengths)

    for t in (t for t in types if t.word == "struct"):
        if any(x.endswith("]") for x in t.fields) and any(re.match(f"(count|length|len|size): {NUMBER}", x) for x in t.fields):
            yield "array with a count beside it, in a struct", t.place, f"{t.name} {{ {', '.join(t.fields)} }}"
        if same_length(t.fields):
            yield "parallel arrays, in a struct", t.place, f"{t.name}: {', '.join(x for x in t.fields if x.endswith(']'))}"
        if len(t.fields) == 1 and re.search(rf"\[{NUMBER}; \d+\]$", t.fields[0]):
            yield "table by a computed index", t.place, f"{t.name}: {t.fields[0]}"
    for f in functions:
        if same_length(f.types):
            yield "parallel arrays, as parameters", f.place, f"{f.name}: {', '.join(n for n, t in f.params if t.endswith(']'))}"
        slices, offsets = [n for n, t in f.params if re.match(r"&\[", t)], [n for n, t in f.params if t == "usize" and n not in ("budget", "count")]
        if slices and offsets:
            yield "slice with an offset or a length beside it", f.place, f"{f.name}: {', '.join(slices + offsets)}"
        if any(re.search(r"; \d+\]$|^(Pends|Stalls|SiteQueue|Queue)$", t) for t in f.types) and "usize" in f.types:
            yield "array with a count or a position beside it, as parameters", f.place, f"{f.name}: {', '.join(n for n, _ in f.params)}"
        texts = [n for n, t in f.params if t == "&[u8]" and n in ("text", "word")]
        if texts:
            yield "text as bytes, not &str", f.place, f"{f.name}: {', '.join(texts)}"
        for name in re.findall(r"let mut (\w+)(?:: [^=]*)? = \[[^\]]*; \w+\];", f.body):
            if re.search(rf"&(mut )?{name}(\[0\.\.|\)|, )", f.body) and not re.search(rf"{name}: {name}", f.body):
                yield "local array with a length beside it", f.place, f"{f.name}: {name}"
        for at, head, body in f.loops():
            if any(re.search(rf"return {n};", body) for n in re.findall(r"[a-z]\w*", head)):
                yield "search by hand", *f.at(at)


def switches(functions, types, _files):
    """7. Switches on which step, instruction, action, refusal or kind to go by: ladders, matches on enums and on numbers; and tables."""
    names = "|".join(t.name for t in types if t.word == "enum" and len(t.fields) > 3) or "-"
    for f in functions:
        ladder = re.findall(rf"let (?:{names})::\w+", f.body)
        if len(ladder) > 1:
            yield "ladder of let-else", f.place, f"{f.name}: {len(ladder)} rungs"
        arms = re.findall(rf"(?m)^\s*((?:{names})::\w+)[^=;\n]*(?:=>|\{{$)", f.body)
        if len(arms) > 1:
            yield "match on an enum", f.place, f"{f.name}: {len(arms)} arms, {arms[0]} first"
        numbers = re.findall(rf"if (?:\w+\.)?{KIND} (?:==|<=) \d|if \d < {KIND}\b|match {KIND} ", f.body)
        if len(numbers) > 1 or any("match" in x for x in numbers):
            yield "switch on a number", f.place, f"{f.name}: {', '.join(numbers)}"
        index = re.match(r"\s*([A-Z_]+)\[\w+\]\s*$", f.body)
        if index:
            yield "table", f.place, f"{f.name}: {index[1]}"


def proofs(_functions, _types, files):
    """8. Files Answers.antt and Invariants.antt, and the answers in them."""
    for name, text in sorted(files.items()):
        kind, crate = name.rsplit("/", 1)[1], name.split("/")[1]
        if re.search("/proofs/.+/", name) and kind in ("Answers.antt", "Invariants.antt"):
            answers = re.findall(r"(?m)^(?:abbrev )?pub (\S+) : goal\.", text)
            yield f"{crate}: files {kind}", name[7:], f"{len(answers)} declared"
            if kind == "Answers.antt":
                yield from ((f"{crate}: answers", name[7:], answer) for answer in answers)


def repeated(_functions, _types, files):
    """8. Answers whose bodies are the same after renaming; names of lemmas and of the library stay as they are."""
    groups = collections.defaultdict(list)
    for name, text in sorted(files.items()):
        if not re.search("/proofs/.+/Answers.antt$", name):
            continue
        lemmas = {x.strip() for m in re.finditer(r"use (\S+)\.\{([^}]*)\}", text) if ".specs." not in m[1] for x in m[2].split(",")}
        for m in re.finditer(r"(?ms)^pub (\S+) : goal\.\S+\n(.*?)(?=^\S+ :|^pub |\Z|\n\n)", text):
            seen, out = {}, []
            for word in re.findall(r"[^\s().,;:×=∙{}]+|\S", m[2].split("=", 1)[-1]):
                keep = word in lemmas or not word[0].isalnum() or word in ("rw", "let", "in", "search", "rules", "at", "cc", "omega", "λ")
                out.append(word if keep else f"v{seen.setdefault(word, len(seen))}")
            groups[" ".join(out)].append((name[7:], m[1], " ".join(m[2].split("=", 1)[-1].split())))
    held = sorted((group for group in groups.values() if len(group) > 1), key=len, reverse=True)
    for i, group in enumerate(held):
        yield from ((f"group {i + 1}, as {group[0][2][:110]}", place, answer) for place, answer, _ in group)


def beside(functions, _types, _files):
    """0. Beside the points: a field copied into a local, and a field set to a local of its name."""
    for f in functions:
        for m in re.finditer(r"let (?:mut )?\w+ = [a-z]\w*(?:\.\w+)+;", f.body):
            yield "field copied into a local", *f.at(m.start())
        for m in re.finditer(r"\b(\w+): \1,", f.body):
            yield "field set to a local of its name", *f.at(m.start())


def main():
    words = sys.argv[1:]
    points = [x for x in words if re.fullmatch("[0-8]", x)]
    commit = ([x for x in words if x not in points and x != "--counts"] or ["HEAD"])[0]
    loaded = load(commit)
    for point in (values, twins, counted, by_hand, together, buffers, switches, proofs, repeated, beside):
        if points and point.__doc__[0] not in points:
            continue
        kinds = collections.defaultdict(list)
        for kind, *place in point(*loaded):
            kinds[kind].append(place)
        print(f"{point.__doc__} {sum(map(len, kinds.values()))} places, {len(kinds)} kinds or groups.")
        for kind, places in kinds.items():
            print(f"    {len(places)}  {kind}")
            if "--counts" not in words:
                print("".join(f"        {place}  {text}\n" for place, text in places), end="")


if __name__ == "__main__":
    main()
