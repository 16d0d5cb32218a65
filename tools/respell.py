#!/usr/bin/env python3
"""Respells the repository's own definitions, lemmas, fields and constructors: camelCase and words joined by dashes become snake_case.

usage: tools/respell.py [ROOT]      once, after the kit's port.py; prints what fell together, and keeps such names as they are

Functions of src/, types, modules, strings and comments keep their names. Names that a file imports from the kit keep theirs there.
"""

import collections
import os
import re
import sys

ROOT = sys.argv[1] if len(sys.argv) > 1 else "."
KINDS = r"(?:(?:unfoldable|abbrev|pub|opaque)\s+)*"
DECLARED = re.compile(r"(?m)^(\s*)(" + KINDS + r")([^\s(){}\[\].,;:=λ\"]+)\s*:(?=\s)")
FIELD = re.compile(r"(?m)^\s*(?:pub\s+)?((?:[^\s(){}\[\].,;:=λ\"]+\s+)+):(?=\s)")
TOKEN = re.compile(r"[^\s(){}\[\].,;λ\"⌜⌝]+")
USE = re.compile(r"(?ms)^(\s*(?:ghost )?(?:pub )?use\s+)([\w.◌·'-]+?)\.\{(.*?)\}")
STRING_OR_NOTE = re.compile(r"\"(?:[^\"\\\n]|\\.)*\"|(?:(?<=\s)|^)--(?=\s|$)[^\n]*", re.M)
RUST_KEPT = re.compile(r"\"(?:[^\"\\]|\\.)*\"|//[^\n]*")
GIVEN = {"by-source": "source_channels", "by-core": "core_channels"}
KEYWORDS = {"let", "where", "module", "use", "mod", "data", "record", "case", "of", "in", "if", "λ", "unfolding", "with", "rw"}


def snake(name):
    if name[0].isupper():
        return "".join(w[0].upper() + w[1:] for w in name.split("-"))
    s = name.replace("-", "_")
    s = re.sub(r"(?<=[a-z0-9])(?=[A-Z])", "_", s)
    s = re.sub(r"(?<=[A-Z])(?=[A-Z][a-z])", "_", s)
    return s.lower()


def is_old(name):
    if re.match(r"^[A-Z][A-Za-z0-9']*(-[A-Za-z0-9]+)+$", name):
        return True
    return bool(re.match(r"^[a-z][A-Za-z0-9'₀-₉≡≤<-]*$", name)) and ("-" in name or re.search("[A-Z]", name) is not None)


def texts(ending):
    for folder, dirs, files in os.walk(os.path.join(ROOT, "crates")):
        dirs[:] = sorted(d for d in dirs if d != "out")
        for f in sorted(files):
            if f.endswith(ending):
                yield os.path.join(folder, f)


def is_walk(path):
    return os.path.basename(path) == "Proof.antt"


def read(path):
    with open(path, encoding="utf-8") as f:
        return f.read()


def plain(text):
    return STRING_OR_NOTE.sub("", text)


def parts(text, kept):
    """The text in pieces: (whether it is to be turned, piece)."""
    at = 0
    for m in kept.finditer(text):
        yield True, text[at : m.start()]
        yield False, m.group()
        at = m.end()
    yield True, text[at:]


def declared_in(text):
    names = set()
    for m in DECLARED.finditer(plain(text)):
        if m.group(3) not in KEYWORDS:
            names.add(m.group(3))
    for m in FIELD.finditer(plain(text)):
        words = m.group(1).split()
        if words[0] not in KEYWORDS and not any(w in KEYWORDS for w in words):
            names.update(words)
    for m in re.finditer(r"\bas ([^\s,{}]+)", plain(text)):
        names.add(m.group(1))
    return names


def own(module, crates):
    w = module.split(".")
    return w[0] == "Rattle" and len(w) > 1 and w[1] in crates


def imports(text, crates):
    """The names that a file imports from the kit, and those from the repository."""
    kit, ours = set(), set()
    for m in USE.finditer(text):
        names = {n for n in re.split(r"[\s,{}]+", m.group(3)) if n}
        (ours if own(m.group(2), crates) else kit).update(names)
    return kit, ours


def main():
    crates = set(os.listdir(os.path.join(ROOT, "crates")))
    antt = {p: read(p) for p in texts(".antt")}
    rust = {p: read(p) for p in texts(".rt")}
    names = collections.defaultdict(set)
    local = {}
    for p, t in antt.items():
        d = declared_in(t)
        if is_walk(p):
            local[p] = {n for n in d if re.search(r"(?m)^(?:abbrev\s+)?" + re.escape(n) + r"\s*:\s*tie\.", t)}
            d = d - local[p]
        for n in d:
            names[n].add(p)
    turn = {n: snake(n) for n in names if is_old(n)}
    # names that would fall together, by GIVEN or as laws: of two old spellings of one name the one in specs/ has it, the other ends in _law
    turn.update({n: s for n, s in GIVEN.items() if n in turn})
    back = collections.defaultdict(set)
    for n, s in turn.items():
        back[s].add(n)
    for n in names:
        if n not in turn:
            back[n].add(n)
    plainly = {}
    for s, ns in sorted(back.items()):
        if len(ns) > 1 and any(n in turn for n in ns):
            order = sorted(ns, key=lambda n: (not any(os.sep + "specs" + os.sep in p for p in names[n]), "-" in n, n not in turn, n))
            for n in order[1:]:
                (turn if n in turn else plainly)[n] = s + "_law"
            print("one spelling:", s, [(n, turn.get(n) or plainly.get(n, n), sorted(os.path.relpath(p, ROOT) for p in names[n])[:3]) for n in order])
    taken = set(names) | set(turn.values())
    for n in list(turn) + list(plainly):
        s = turn.get(n) or plainly[n]
        if s.endswith("_law") and s in names:
            print("taken:", s)

    def respell(text, keep, notes, more=()):
        here = {**turn, **dict(more)}
        out = []
        for turned, piece in parts(text, notes):
            if turned:
                piece = TOKEN.sub(lambda m: here.get(m.group(), m.group()) if m.group() not in keep else m.group(), piece)
            out.append(piece)
        return "".join(out)

    for p, t in antt.items():
        kit, ours = imports(t, crates)
        keep = kit | local.get(p, set())
        for n in sorted(kit & ours & set(turn)):
            print("imported twice:", n, p)
        mine = declared_in(t) | ours
        after = {turn.get(n, n) for n in mine}
        for s in sorted({turn.get(n, n) for n in mine if n in turn} & (kit - set(turn))):
            print("also of the kit:", s, os.path.relpath(p, ROOT))
        for n in sorted(keep & set(turn) & declared_in(t) - local.get(p, set())):
            print("declared and of the kit:", n, os.path.relpath(p, ROOT))
        # a snake-case loser is turned where it is declared, or imported from where it is
        more = {n: s for n, s in plainly.items() if p in names[n]}
        for m in USE.finditer(t):
            for n in re.split(r"[\s,{}]+", m.group(3)):
                if n in plainly and any(q.endswith(os.sep.join(m.group(2).split(".")[1:]) + ".antt") for q in names[n]):
                    more[n] = plainly[n]
        new = respell(t, keep, STRING_OR_NOTE, more)
        if new != t:
            with open(p, "w", encoding="utf-8") as f:
                f.write(new)
    for p, t in rust.items():
        new = respell(t, imports(t, crates)[0], RUST_KEPT)
        if new != t:
            with open(p, "w", encoding="utf-8") as f:
                f.write(new)
    # edits: their 'old:' and 'new:' lines
    for top in ("crates", "wrong"):
        for folder, dirs, files in os.walk(os.path.join(ROOT, top)):
            dirs[:] = [d for d in dirs if d != "out"]
            for f in files:
                if f.endswith(".edit"):
                    p = os.path.join(folder, f)
                    t = read(p)
                    new = respell(t, set(), re.compile(r"\"(?:[^\"\\\n]|\\.)*\"|^#[^\n]*|^file:[^\n]*", re.M))
                    if new != t:
                        with open(p, "w", encoding="utf-8") as g:
                            g.write(new)
    # pages: names between back-quotes
    for folder, dirs, files in os.walk(ROOT):
        dirs[:] = [d for d in dirs if d not in ("out", ".git", "target")]
        for f in files:
            if f.endswith(".md"):
                p = os.path.join(folder, f)
                t = read(p)
                new = re.sub(r"`[^`\n]+`", lambda m: TOKEN.sub(lambda k: turn.get(k.group(), turn.get(k.group().strip("`"), None) and k.group().replace(k.group().strip("`"), turn[k.group().strip("`")]) or k.group()), m.group()), t)
                if new != t:
                    with open(p, "w", encoding="utf-8") as g:
                        g.write(new)
    print(len(turn), "names turned")


main()
