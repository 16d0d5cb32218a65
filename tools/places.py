#!/usr/bin/env python3
"""Counts the places in crates/*/src that docs/DESIGN-PASS.md speaks of, and lists them.

  python3 tools/places.py            a line for each point: how many places
  python3 tools/places.py 3          the places of point 3, each as crate::function, with what was seen there

It reads text, so what it finds is a place to look at; the page says of each what became of it."""
import collections
import glob
import os
import re
import sys

ROOT = os.path.dirname(os.path.dirname(os.path.abspath(__file__)))


class Function:
    """A function: its crate, name, the comment before it, its parameters, clauses and body."""

    def __init__(self, crate, name, comment, head, clauses, body, result, whole):
        self.crate, self.name, self.comment = crate, name, comment
        self.head, self.clauses, self.body, self.result, self.whole = head, clauses, body, result, whole

    def place(self):
        return f"{self.crate}::{self.name}"

    def parameters(self):
        inside = self.head[self.head.index("(") + 1 :]
        inside = inside[: inside.rindex(")")] if ")" in inside else inside
        depth, part, parts = 0, "", []
        for c in inside:
            depth += c in "([<{"
            depth -= c in ")]>}"
            if c == "," and depth == 0:
                parts.append(part)
                part = ""
            else:
                part += c
        parts.append(part)
        return [p.strip() for p in parts if ":" in p]


def sources():
    for path in sorted(glob.glob(f"{ROOT}/crates/*/src/*.rt")):
        yield path.split("/")[-3], open(path, encoding="utf-8").read().split("\n")


def functions():
    for crate, lines in sources():
        i, comment = 0, []
        while i < len(lines):
            line = lines[i]
            if line.strip().startswith("//"):
                comment.append(line.strip())
            elif re.match(r"\s*(pub )?(const )?(unsafe )?(extern \"C\" )?fn \w+", line):
                name = re.search(r"fn (\w+)", line).group(1)
                start, indent = i, len(line) - len(line.lstrip())
                # The body begins at a line that ends in `{` and is no clause; it ends at a `}` with the same indent.
                opens = i
                while not (lines[opens].rstrip().endswith("{") and not lines[opens].strip().startswith(("requires", "ensures"))):
                    opens += 1
                    if lines[opens].rstrip().endswith(";") and not lines[opens].strip().startswith(("requires", "ensures")):
                        break
                close = opens
                while close < len(lines) and lines[close] != " " * indent + "}":
                    close += 1
                head = [l for l in lines[start : opens + 1] if not re.match(r"\s*(requires|ensures)", l)]
                clauses = [l.strip() for l in lines[start : opens + 1] if re.match(r"\s*(requires|ensures)", l)]
                text = " ".join(h.strip() for h in head)
                result = re.search(r"\) -> ([^{]*?)\s*(\{.*)?$", text)
                yield Function(crate, name, " ".join(comment), text.split(" -> ")[0], clauses, lines[opens + 1 : close], result.group(1).strip() if result else "", lines[start:close])
                comment, i = [], close
            elif line.strip().startswith("#["):
                pass
            else:
                comment = []
            i += 1


def enums():
    """Point 1: enums of two cases of which one carries nothing or a refusal, or of one good case beside refusals."""
    for crate, lines in sources():
        for i, line in enumerate(lines):
            m = re.match(r"\s*(pub )?enum (\w+)", line)
            if not m:
                continue
            cases = []
            for inner in lines[i + 1 :]:
                if inner.strip() == "}":
                    break
                c = re.match(r"\s*(\w+)(\(.*\)| \{)?", inner)
                if c and not inner.strip().startswith("//"):
                    cases.append((c.group(1), bool(c.group(2))))
            loaded = [c for c, has in cases if has]
            shaped = (len(cases) == 2 and len(loaded) >= 1) or re.search(
                r"Refused|TooShort|OutShort|NoStream|IllFormed|SpansIll|NotBtsnoop|NotPcap|Sound|Neither", " ".join(c for c, _ in cases)
            )
            if shaped:
                yield f"{crate}::{m.group(2)}: {', '.join(c for c, _ in cases)}"


def sentinels():
    """Point 1: a number that says yes or no, none, or a kind."""
    words = r"// (1|0) (if|for|where) |, (or|and) (0|36|their number|1) |; 0 (if|where)|or 0\b|0 if (it|there)|else 0\b|, their number"
    for f in functions():
        if f.result in ("usize", "u8", "u16", "u32", "u64") and re.search(words, f.comment) and not f.name.startswith("lumbryth_"):
            yield f"{f.place()}: {f.result}"


def twins():
    """Point 2: functions whose bodies are alike but for names, numbers and texts."""
    shapes = collections.defaultdict(list)
    for f in functions():
        text = " ".join(l.strip() for l in f.body if not l.strip().startswith("//"))
        shape = re.sub(r"b?\"[^\"]*\"", "T", re.sub(r"\b(0x)?[0-9A-F]+\b", "N", text))
        shape = re.sub(r"\b[A-Za-z_]\w*\b", "x", shape)
        if len(shape) > 60:
            shapes[shape].append(f)
    for group in shapes.values():
        if len(group) > 1:
            yield " ~ ".join(f.place() for f in group)


def pairs():
    """Point 2: pairs of functions whose heads or bodies share five lines or more in a row, the same but for white space. Lines of punctuation
    alone count for nothing, and neither does a run that is the same in a struct's fields only."""
    runs = collections.defaultdict(set)
    texts = {}
    for f in functions():
        lines = [re.sub(r"\s+", " ", l.strip()) for l in f.whole]
        lines = [l for l in lines if re.search(r"\w{2}", l) and not l.startswith("//") and l not in ("else {", "return;")]
        texts[f] = lines
        for i in range(len(lines) - 4):
            runs[tuple(lines[i : i + 5])].add(f)
    found = set()
    for fs in runs.values():
        for f in fs:
            for g in fs:
                if (f.crate, f.name) < (g.crate, g.name):
                    found.add((f.place(), g.place()))
    for f, g in sorted(found):
        yield f"{f} ~ {g}"


def loops():
    """Point 3: a `while` whose test has a variable that the body moves by a number."""
    for f in functions():
        for i, line in enumerate(f.body):
            m = re.match(r"(\s*)while (.*) \{", line)
            if not m:
                continue
            body = []
            for inner in f.body[i + 1 :]:
                if inner == m.group(1) + "}":
                    break
                body.append(inner)
            for v in re.findall(r"\b[a-z_]\w*\b", m.group(2)):
                if any(re.match(rf"\s*{v} (\+|-)= \w+;|\s*{v} = \w+ (\+|-) \w+;", b) for b in body):
                    yield f"{f.place()}: while {m.group(2)}"
                    break


def conversions():
    """Point 4: a function of one number, flag or enum that gives another by a cast, a match or tests; equality and printing by hand."""
    plain = r"(u8|u16|u32|u64|usize|bool|[A-Z]\w*)"
    for f in functions():
        p = f.parameters()
        text = " ".join(l.strip() for l in f.body)
        if len(p) == 1 and re.fullmatch(rf"\w+: {plain}", p[0]) and re.fullmatch(plain, f.result) and p[0].split(": ")[1] != f.result:
            if len(f.body) <= 40 and not re.search(r"\b\w+\(", re.sub(r"\b[A-Z]\w*(::\w+)?\(", "", text)):
                yield f"{f.place()}: {p[0]} -> {f.result}"
        elif len(p) == 2 and f.result == "bool" and p[0].split(": ")[1] == p[1].split(": ")[1] and re.search(r"same|equal|eq", f.name):
            yield f"{f.place()}: equality of two {p[0].split(': ')[1]}"
        elif re.match(r"print|refuse", f.name):
            yield f"{f.place()}: printing"


def definitions():
    """What each file imports for its clauses: the name and the path that it comes from."""
    for crate, lines in sources():
        names = {}
        for path, inside in re.findall(r"ghost use ([\w.]+)\.\{([^}]*)\};", "\n".join(lines)):
            for name in inside.split(","):
                names[name.strip().split(" as ")[-1]] = path
        yield crate, names


def facts():
    """Point 5: a fact, by its definition, in the `requires` of three or more functions."""
    paths = dict(definitions())
    heads = collections.defaultdict(list)
    for f in functions():
        for c in f.clauses:
            m = re.match(r"requires (\w+ )?\{ ([A-Z]\w*) (.*) \}", c)
            if m:
                heads[(paths[f.crate].get(m.group(2), f.crate), m.group(2))].append(f)
    for (path, head), fs in sorted(heads.items()):
        if len(fs) >= 3:
            yield f"{head} of {path}: {', '.join(f.place() for f in fs)}"


def travellers():
    """Point 5: three or more parameters that stand side by side in three or more functions of a crate. The exports and the calls that
    they pass on to are not counted: the C interface names their parameters one by one."""
    groups = collections.defaultdict(list)
    for f in functions():
        names = [q.split(":")[0].strip() for q in f.parameters()]
        if "values" in names or f.crate.startswith("lumbryth"):
            continue
        for size in range(3, 7):
            for at in range(len(names) - size + 1):
                groups[(f.crate, tuple(names[at : at + size]))].append(f)
    kept = {g: fs for g, fs in groups.items() if len(fs) >= 3}
    for (crate, names), fs in sorted(kept.items()):
        inside = [g for g in kept if g[0] == crate and len(g[1]) > len(names) and any(g[1][k : k + len(names)] == names for k in range(len(g[1])))]
        if not inside:
            yield f"{', '.join(names)}: {', '.join(f.place() for f in fs)}"


def buffers():
    """Point 6: constant tables side by side, a search by halves, a count kept beside values, links kept as numbers."""
    for crate, lines in sources():
        for line in lines:
            m = re.match(r"(pub )?(const|static) (\w+): \[(.*)\]", line)
            if m:
                yield f"{crate}::{m.group(3)}: table of {m.group(4)}"
    for f in functions():
        text = " ".join(f.body)
        if re.search(r"\(hi - lo\) / 2|/ 2;.*\bmid\b", text):
            yield f"{f.place()}: search by halves"
    for crate, lines in sources():
        for i, line in enumerate(lines):
            m = re.match(r"\s*(pub )?struct (\w+)", line)
            if m:
                fields = []
                for inner in lines[i + 1 :]:
                    if inner.strip() == "}":
                        break
                    n = re.match(r"\s*(pub )?(\w+): (.*),", inner)
                    if n:
                        fields.append(n.group(2))
                if {"count", "a", "b"} <= set(fields) or {"rows", "links"} <= set(fields):
                    yield f"{crate}::{m.group(2)}: {', '.join(fields)}"


def switches():
    """Point 7: a number that says which step is run; functions in tables."""
    for f in functions():
        for line in f.body:
            if re.search(r"\bop (==|>|<)|match (c\.)?op\b|\.op (==|>|<)|\[fn\(|: fn\(", line):
                yield f"{f.place()}: {line.strip()}"


def answers():
    """Point 8: answers written for the goals of functions, a file each."""
    for path in sorted(glob.glob(f"{ROOT}/crates/*/proofs/*/Answers.antt")):
        text = open(path, encoding="utf-8").read()
        n = len(re.findall(r"^pub [\w-]+ : goal\.", text, re.M))
        yield f"{path.split('/')[-4]}::{path.split('/')[-2]}: {n} answers"


POINTS = {1: [enums, sentinels], 2: [twins, pairs], 3: [loops], 4: [conversions], 5: [facts, travellers], 6: [buffers], 7: [switches], 8: [answers]}

if __name__ == "__main__":
    if len(sys.argv) > 1:
        for count in POINTS[int(sys.argv[1])]:
            for place in count():
                print(place)
    else:
        for point, counts in POINTS.items():
            print(f"{point}: " + ", ".join(f"{c.__name__} {len(list(c()))}" for c in counts))
