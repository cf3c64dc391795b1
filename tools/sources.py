"""The functions and types of crates/*/src/*.rt at a commit, parsed as far as places.py needs it."""
import collections
import io
import re
import subprocess
import tarfile

NUMBER = r"(?:u8|u16|u32|u64|usize)"
WORDS = set("let mut if else return while loop for in match as true false break continue self Self bool".split())
Type = collections.namedtuple("Type", "place word name fields")


class Function(collections.namedtuple("Function", "file line name params result clauses body start")):
    """A function: where it stands, its head, its clauses and its body, with the line on which that starts."""

    place = property(lambda self: f"{self.file}:{self.line}")
    types = property(lambda self: [kind for _, kind in self.params])

    def at(self, offset):
        """The place of what stands at an offset of the body, and the line that stands there."""
        line = self.body[: self.body.find("\n", offset)].rsplit("\n", 1)[-1].strip()
        return f"{self.file}:{self.start + self.body.count(chr(10), 0, offset)}", f"{self.name}: {line}"

    def loops(self):
        """Each loop: its offset, its head and its body."""
        for m in re.finditer(r"\b(while [^{]*|loop )\{", self.body):
            yield m.start(), m[1], self.body[m.end() : closing(self.body, m.end() - 1)]


def closing(text, start):
    """Where the bracket that opens at start is closed."""
    depth = 0
    for i in range(start, len(text)):
        depth += (text[i] in "({[") - (text[i] in ")}]")
        if depth == 0:
            return i
    raise ValueError(text[start : start + 60])


def parts(text, by):
    """The parts of a text between the signs `by` that stand in no bracket."""
    out, depth, start = [], 0, 0
    for i, sign in enumerate(text):
        depth += (sign in "({[<" and text[i : i + 2] != "< ") - (sign in ")}]" or (sign == ">" and text[i - 1] not in "- "))
        if sign == by and depth == 0:
            out.append(text[start:i].strip())
            start = i + 1
    return [part for part in out + [text[start:].strip()] if part]


def parse(name, text):
    """The functions and the types of a source file."""
    short = name.replace("crates/", "").replace("/src/", "/")
    text = re.sub(r"//[^\n]*", "", text)
    text = re.sub(r"(?s)#\[cfg\(test\)\]\nmod \w+ \{.*?\n\}", lambda m: "\n" * m[0].count("\n"), text)
    line = lambda at: text.count("\n", 0, at) + 1
    types, functions = [], []
    for m in re.finditer(r"(?ms)^(?:pub(?:\(crate\))? )?(struct|enum) (\w+)[^{;(\n]*\{(.*?)^\}", text):
        fields = [re.sub(r"^(#\[[^\]]*\]\s*)*(pub(\(crate\))? )?", "", part) for part in parts(m[3], ",")]
        types.append(Type(f"{short}:{line(m.start())}", m[1], m[2], fields))
    owners = [(m.start(), m[1]) for m in re.finditer(r"(?m)^(?:pub )?(?:impl|trait)\b[^{\n]*?(\w+)(?:<[^{\n]*>)? \{", text)]
    for m in re.finditer(r"(?m)^( *)(?:pub(?:\(crate\))? )?(?:extern \"C\" )?(?:const )?fn (\w+)(?:<(?:[^()]|\([^()]*\))*?>)?\(", text):
        at = closing(text, m.end() - 1)
        params = tuple(tuple(re.sub(r"\bmut ", "", x).split(": ", 1)) for x in parts(text[m.end() : at], ",") if ": " in x)
        result = re.match(r"\)(?:\s*->\s*((?:\[[^\]]*\]|[^\n{;\[])+))?", text[at:])
        clauses, opened = [], re.compile(r"[{;]").search(text, at + result.end())
        while opened and opened[0] == "{":
            close = closing(text, opened.start())
            if not re.search(r"\b(requires|ensures)\s*\w*\s*$", text[at : opened.start()]):
                owner = [owner + "::" for place, owner in owners if place < m.start() and m[1]][-1:]
                functions.append(Function(short, line(m.start()), "".join(owner) + m[2], params, (result[1] or "()").strip(),
                                          tuple(clauses), text[opened.end() : close], line(opened.end())))
                break
            clauses.append(text[opened.end() : close].strip())
            at, opened = close, re.compile(r"[{;]").search(text, close)
    return functions, types


def shape(text, exact):
    """The signs of a body, a number as 0 and a text as s; a name as v, or, for an exact shape, by when it first stands there."""
    seen, out = {}, []
    for sign in re.findall(r"b?\"[^\"]*\"|\w+|[^\w\s]", text):
        if re.match(r"\w", sign) and sign not in WORDS and '"' not in sign:
            sign = "0" if sign[0].isdigit() else f"v{seen.setdefault(sign, len(seen))}" if exact else "v"
        out.append("s" if '"' in sign else sign)
    return out


def facts(f):
    """What the clauses of a function say of its parameters and its result, each value by its type; numbers and bracketed parts as a dash."""
    def single(text):
        text = text.strip()
        while text.startswith("(") and closing(text, 0) == len(text) - 1:
            text = text[1:-1].strip()
        if len(parts(text, "→")) > 1:
            return single(parts(text, "→")[-1])
        return [text] if len(parts(text, "×")) == 1 else [y for x in parts(text, "×") for y in single(x)]

    for fact in (x for text in f.clauses for x in single(text) if not re.search(r"≡ (?!true|false)", x)):
        general = fact
        for name, kind in [*f.params, ("result", f.result)]:
            if not re.fullmatch(NUMBER, kind):
                general = re.sub(rf"(?<![\w.]){name}\b", kind.replace("&", ""), general)
        general = re.sub(r"(?<![\w;] )\b\d+\b", "–", general)
        while re.search(r"\([^()]*\)", general):
            general = re.sub(r"\([^()]*\)", "–", general)
        if general != "result ≤ –":
            yield general, fact


def load(commit):
    """The functions and types of the commit's crates, and the text of each .antt file by its name."""
    packed = subprocess.run(["git", "archive", commit, "crates"], stdout=subprocess.PIPE, check=True).stdout
    with tarfile.open(fileobj=io.BytesIO(packed)) as tar:
        files = {m.name: tar.extractfile(m).read().decode() for m in tar if m.isfile() and m.name.endswith((".rt", ".antt"))}
    parsed = [parse(name, files[name]) for name in sorted(files) if name.endswith(".rt") and "/src/" in name]
    functions, types = ([x for one in parsed for x in one[k]] for k in (0, 1))
    return functions, types, {name: text for name, text in files.items() if name.endswith(".antt")}
