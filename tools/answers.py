#!/usr/bin/env python3
"""Turns each proofs/F/Proof.antt of a crate into proofs/F/Invariants.antt and proofs/F/Answers.antt, once, by the names that the kit lists.

usage: python3 tools/answers.py CRATE NAMES.json FOLDER

NAMES.json is what `rt check --generated DIR --old-names` writes in the crate's folder. FOLDER has the Proof.antt files, laid out as in proofs/; the new files go below
crates/CRATE/proofs. An answer that only says `search rules` is left out, since the check tries more by itself. What has no new name is printed and left as it was.
"""
import glob
import json
import os
import re
import sys


def plain(name):
    """One spelling for a name of the older kit: a dash for each underscore, and no word for the kind of overflow."""
    name = name.replace("_", "-")
    return name[len("overflow-") :] if name.startswith("overflow-") else name


def blocks(text):
    """The declarations of a file, each with the comment above it; they are set apart by empty lines, or begin at the margin with a signature."""
    out = []
    for part in re.split(r"\n\s*\n", text.strip("\n")):
        out.append(part)
    return out


def clauses_of(kind="ensures"):
    """The names of the clauses of each function that has two or more of a kind, by crate and name."""
    out = {}
    for p in glob.glob("crates/*/src/**/*.rt", recursive=True):
        with open(p, encoding="utf-8") as f:
            text = re.sub(r"//[^\n]*", "", f.read())
        crate = p.split("/")[1]
        for m in re.finditer(r"\bfn (\w+)(.*?)\n\s*\{\n", text, re.S):
            names = re.findall(r"\b" + kind + r" (\w+) \{", m[2])
            if len(names) > 1:
                out[crate, m[1]] = names
    return out


def lent_parameters():
    """The names of the `&mut` parameters of each function, by crate and name."""
    out = {}
    for p in glob.glob("crates/*/src/**/*.rt", recursive=True):
        with open(p, encoding="utf-8") as f:
            text = re.sub(r"//[^\n]*", "", f.read())
        for m in re.finditer(r"\bfn (\w+)\((.*?)\)(?: ->|\n)", text, re.S):
            out[p.split("/")[1], m[1]] = re.findall(r"(\w+): &mut ", m[2])
    return out


def split_tuple(body):
    """The parts of the tuple that a body ends with, and what stands before it; or None."""
    text = body.rstrip()
    if not text.endswith(")"):
        return None
    depth = 0
    for i in range(len(text) - 1, -1, -1):
        depth += text[i] == ")"
        depth -= text[i] == "("
        if depth == 0:
            break
    head = text[:i].rstrip()
    if head and not re.search(r"( in|=|\n)$", head) and head != "":
        return None
    parts, depth, start = [], 0, i + 1
    for k in range(i + 1, len(text) - 1):
        depth += text[k] in "({["
        depth -= text[k] in ")}]"
        if text[k] == "," and depth == 0:
            parts.append(text[start:k].strip())
            start = k + 1
    if text[start : len(text) - 1].strip():
        parts.append(text[start : len(text) - 1].strip())
    return (text[:i], parts) if len(parts) > 1 else None


class Function:
    def __init__(self, names, key, path):
        self.key, self.path, self.row = key, path, names[key]
        self.goals = {}
        for i, (old, new) in enumerate(self.row["needs"]):
            self.goals[plain(old)] = (new, i)
        self.steps = {}
        for place in self.row["places"]:
            old, new = place[2]
            if old:
                self.steps[plain(old)] = new
        for loop in self.row["loops"]:
            self.steps[plain(loop[0][0])] = loop[0][1]
        self.places = {p[0]: p for p in self.row["places"]}
        self.said = []
        self.crate = key.split("-")[1]
        own = (self.crate, path.split("/")[-1].lstrip("+"))
        self.ensured, self.required = ENSURED.get(own), REQUIRED.get(own)

    def say(self, text):
        self.said.append(f"{self.path}: {text}")

    def required_of(self, need):
        """The names of what a call's goal has to show, where that is more than one."""
        m = re.fullmatch(r"(.*)-requires(?:-\d+)?", need)
        name = m and m[1].replace("-", "_")
        for p in self.row["places"]:
            if p[3] and p[3].split("::")[-1] == name:
                return REQUIRED.get((p[3].split("::")[0], name))
        return name and REQUIRED.get((self.crate, name))

    def chain(self, goal):
        """The places from a goal's up to the start, by their older names."""
        out, at = [], self.row["asked_at"][goal][0]
        while at in self.places:
            out.append(at)
            at = self.places[at][1]
        return out

    def body(self, text, goal):
        """Rewrites what a body cites of `c`."""
        while True:
            m = re.search(r"let ([\w'-]+) = c(?:\.before)+ in\s*", text)
            to = "c"
            if not m:
                for m in re.finditer(r"let ([\w'-]+) = c(?:\.before)*\.([\w'-]+) in\s*", text):
                    if plain(m[2]) in self.steps or m[2] == "args":
                        to = "c." + m[2]
                        break
                else:
                    break
            text = text[: m.start()] + re.sub(r"(?<![\w.'-])" + re.escape(m[1]) + r"(?=\.)", to, text[m.end() :])
        text = re.sub(r"(?:\.before)+(?=\.)", "", text)
        for old, new in self.row["args"]:
            old, new = old.replace(" ", ""), new.replace(" ", "")
            text = re.sub(re.escape(old) + r"(?![\w'-])", new, text)
        chain = self.chain(goal)
        for place, arm in zip(self.row["places"], self.row["arms"]):
            for new, step, path in (arm[2] if arm else []):
                if path and (step != "match" or place[0] in chain):
                    old = r"(?<![\w.'-])c\." + re.escape(step).replace("_", "[_-]") + "".join(r"\." + re.escape(p) for p in path) + r"(?![\w'-])"
                    text = re.sub(old, f"c.{arm[0]}.{new}", text)
        near = {}
        for place in reversed(chain):
            old, new = self.places[place][2]
            if old:
                near[plain(old)] = new
        arms = {arm[0] for arm in self.row["arms"] if arm}

        def step(m):
            name = plain(m[1])
            if m[1] in ("args", "requires", "ranges", "well_formed", "lifetimes"):
                return m[0]
            if m[1] in arms:
                return m[0]
            name = name.removesuffix("-lem")
            if name not in near and name not in self.steps:
                name = re.sub(r"\d+$", "", name)
            if name in near:
                return "c." + near[name]
            if name in self.steps:
                return "c." + self.steps[name]
            if m[1] in self.steps.values():
                return m[0]
            self.say(f"`{m[0]}` of {self.row['needs'][goal][1]}: no such step")
            return m[0]

        text = re.sub(r"(?<![\w.'-])c\.([\w'-]+)", step, text)
        called = {p[2][1]: p[3] for p in self.row["places"] if p[3]}

        def ensured(m):
            callee = called.get(m[1])
            names = callee and ENSURED.get((callee.split("::")[0], callee.split("::")[-1]))
            return f"c.{m[1]}.ensures.{names[int(m[2])]}" if names else m[0]

        def lent(m):
            callee = called.get(m[1])
            names = callee and LENT.get((callee.split("::")[0], callee.split("::")[-1]))
            return f"c.{m[1]}.{m[2]}.{names[int(m[3])]}" if names and int(m[3]) < len(names) else m[0]

        text = re.sub(r"(?<![\w.'-])c\.([\w'-]+)\.(new|auto)\.(\d)(?![\w.])", lent, text)
        if self.required:
            text = re.sub(r"(?<![\w.'-])c\.requires\.(\d)(?![\w])", lambda m: f"c.requires.{self.required[int(m[1])]}", text)
        if self.path.split("/")[-1].startswith("+"):
            text = re.sub(r"(?<![\w.'-])c\.requires\.1", "c.requires", text)
        return re.sub(r"(?<![\w.'-])c\.([\w'-]+)\.ensures\.(\d)", ensured, text)


def turn(crate, names, root, path):
    with open(path, encoding="utf-8") as f:
        text = f.read()
    where = os.path.relpath(os.path.dirname(path), root)
    module = where.replace("/", ".")
    key = f"Rattle-{crate}-proofs.{module}.Lts"
    if where.split("/")[-1].startswith("+"):
        key = next((k for k in names if k.startswith(f"Rattle-{crate}-proofs.{module}.Lts-")), key)
    if key not in names:
        print(f"{where}: no names")
        return
    fn = Function(names, key, where)
    uses, invariants, answers = [], [], []
    helpers = []
    for block in blocks(text):
        lines = block.split("\n")
        comment = [l for l in lines if l.startswith("--")]
        rest = [l for l in lines if not l.startswith("--")]
        if not rest:
            helpers.append(block)
            continue
        if rest[0].startswith("use "):
            uses += rest
            continue
        whole = "\n".join(rest)
        need = re.search(r"\.Need-([^\s]+)", whole.split(" =")[0])
        if re.match(r"pub \+?[\w'+-]+-spec :|pub \+?[\w'+-]+_spec :", rest[0]) or re.match(r"abbrev (?:μ-|[\w-]+-(?:at|below) :)", rest[0]) and "Measures" in whole + "In 0" or re.search(r"Measures|: ℕ → In \d", rest[0]):
            continue
        if rest[0].startswith("abbrev invariant") or rest[0].startswith("abbrev decreases"):
            invariants.append(block)
            continue
        if not need:
            helpers.append(block)
            continue
        label = re.match(r"([^\s]+)", rest[0])[1]
        old = plain(need[1])
        if old not in fn.goals:
            body = re.search(r"^" + re.escape(label) + r" [^=]*= ?(.*)", whole, re.S | re.M)
            if body and not body[1].strip().startswith("search rules") and not re.match(r"enum-|slice-aggregate|same-length", need[1]):
                fn.say(f"goal {need[1]}: no such goal")
                answers.append("-- LEFT " + need[1] + "\n" + "\n".join("-- " + l for l in whole.split("\n")))
            continue
        new, at = fn.goals[old]
        eqs = re.search(r"^" + re.escape(label) + r" .*", whole[whole.index("Need-") :], re.S | re.M)
        text_of = eqs[0]
        m = re.match(re.escape(label) + r"((?: (?!=)[^\s]+)*) =(.*)", text_of, re.S)
        args, body = m[1].split(), m[2]
        if body.strip() == "search rules" and "unfolding" not in whole:
            continue
        if args and args[-1] == "κs":
            args = args[:-1]
        unfolding = re.search(r"^unfolding(?:[^\n]*|\n(?:    .*\n)+)", whole, re.M)
        unf = ""
        if unfolding:
            start = whole.index("unfolding", whole.index("Need-"))
            unf = whole[start : whole.index("\n" + label + " ", start)] + "\n"
        out = "\n".join(comment) + ("\n" if comment else "")
        new_body = fn.body(body, at)
        asked = fn.required_of(fn.row["needs"][at][0])
        cut = asked and split_tuple(new_body)
        if cut and len(cut[1]) == len(asked):
            new_body = cut[0] + "record { " + "; ".join(f"{n} = {p}" for n, p in zip(asked, cut[1])) + " }"
        if fn.ensured and new.startswith("returns"):
            cut = split_tuple(new_body)
            if cut and len(cut[1]) == len(fn.ensured):
                new_body = cut[0] + "record { " + "; ".join(f"{n} = {p}" for n, p in zip(fn.ensured, cut[1])) + " }"
            else:
                fn.say(f"{new}: its clauses are {fn.ensured}")
        answers.append(f"{out}pub {new} : goal.{new}\n{unf}{new} {' '.join(args)} ={new_body}")
    base = f"crates/{crate}/proofs/{where}"
    os.makedirs(base, exist_ok=True)
    uses = [u for u in uses if not re.search(r"Rattle\.\w+\.proofs\.(?:[\w.+]+)\.(Statement|Tie|Reads|Kinds|Lts-[\w]+)(\.| as|$)|borrow\.Fn\.|proofs\.\+[\w]+\.\{statement\}", u)]
    mod = f"Rattle.{crate}.proofs.{module}"
    loops = [r for r in fn.row["loops"]] if fn.row.get("loops") else []
    shared = []
    for h in list(helpers):
        m = re.search(r"^(?:(?:abbrev|unfoldable|pub) )*([^\s:]+)(?: \{[^{}]*\})* :", h, re.M)
        if m and any(re.search(r"(?<![\w.'-])" + re.escape(m[1]) + r"(?![\w'-])", b) for b in invariants):
            helpers.remove(h)
            shared.append((m[1], h if " pub " in h or h.startswith("pub ") else re.sub(r"^((?:--.*\n)*)(abbrev |unfoldable )?", r"\1\2pub ", h, count=1)))
    if invariants or loops:
        with open(base + "/Invariants.antt", "w", encoding="utf-8") as f:
            f.write("\n".join(uses + [f"use {mod}.Given as goal"]) + "\n\n" + "\n\n".join([h for _, h in shared] + invariants_of(fn, invariants)) + "\n")
    if answers:
        with open(base + "/Answers.antt", "w", encoding="utf-8") as f:
            shares = [f"use {mod}.Invariants.{{{', '.join(n for n, _ in shared)}}}"] if shared else []
            f.write("\n".join(uses + shares + [f"use {mod}.Goals as goal"]) + "\n\n" + "\n\n".join(helpers + answers) + "\n")
    for s in fn.said:
        print(s)


def invariants_of(fn, parts):
    """Each invariant and measure with its variables as fields of `l`."""
    out = []
    for block in parts:
        m = re.match(r"((?:--.*\n)*)abbrev (invariant|decreases)-(\S+) : \S+\n(?:unfolding[^\n]*\n)?\2-\3((?: [^\s=]+)*) =(.*)", block, re.S)
        if not m:
            out.append("-- LEFT\n" + block)
            continue
        comment, kind, loop, args, body = m.groups()
        new = loop_name(fn, loop)
        for a, to in zip(args.split(), fields(fn, loop, args.split())):
            if a == "_":
                continue
            body = re.sub(r"(?<![\w.'₀-])" + re.escape(a) + r"(?![\w'₀-])", to, body)
        out.append(f"{comment}abbrev pub {kind}-{new} : goal.{kind}-{new}\n{kind}-{new} l ={body}")
    return out


def loop_of(fn, loop):
    """Where a loop stands in the list of loops, by its older name."""
    for k, row in enumerate(fn.row["loops"]):
        if plain(row[0][0]) == plain(loop):
            return k
    fn.say(f"loop {loop}: no such loop")
    return None


def loop_name(fn, loop):
    k = loop_of(fn, loop)
    return loop if k is None else fn.row["loops"][k][0][1]


def fields(fn, loop, args):
    """What stands for each argument of an older invariant: what the loop leaves, then what it changes as it was, then as it is."""
    by_name = [f"l.initial.{a[:-1]}" if a.endswith("₀") else f"l.{a}" for a in args]
    k = loop_of(fn, loop)
    if k is None or k >= len(fn.row["changed"]):
        return by_name
    names, changed = fn.row["loops"][k][1], fn.row["changed"][k]
    moved = [n for n, c in zip(names, changed) if c]
    by_place = [f"l.initial.{n}" if c else f"l.{n}" for n, c in zip(names, changed)] + [f"l.{n}" for n in moved]
    if len(by_place) != len(args):
        fn.say(f"loop {loop}: {len(args)} arguments, and not {len(by_place)}")
        return by_name
    return by_place


ENSURED, REQUIRED, LENT = {}, {}, {}


def main(argv):
    crate, names, root = argv
    ENSURED.update(clauses_of())
    REQUIRED.update(clauses_of("requires"))
    LENT.update(lent_parameters())
    with open(names, encoding="utf-8") as f:
        rows = json.load(f)
    for folder, _, files in os.walk(root):
        if "Proof.antt" in files:
            turn(crate, rows, root, os.path.join(folder, "Proof.antt"))
    return 0


if __name__ == "__main__":
    raise SystemExit(main(sys.argv[1:]))
