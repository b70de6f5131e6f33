#!/usr/bin/env python3
"""Gives the repository's own words of definitions and lemmas today's spelling: snake case, in place of camel case and dashes.

usage: python3 tools/port/spelling.py [ROOT] --write      once, after port.py; with --again a second time

Turns every name that a file of specs/ or a file of lemmas in proofs/ declares and that begins with a small letter, wherever it
stands: in specs/, in proofs/, in clauses of src/ and in must-fail/*.edit. Types and modules keep their names, and so do the
names of src/, exported names, strings and inputs. A name that a file takes from a library stays as it is in that file.
Prints each pair of names that would fall together, and then writes nothing.
"""
import os, re, sys

ROOT = sys.argv[1] if len(sys.argv) > 1 else "."
WORD = re.compile(r"[^\s(){}\[\],;.:λ→\"`∷◌]+")
DECL = re.compile(r"^\s*(?:(?:abbrev|unfoldable|pub|mutual)\s+)*((?:[^\s(){}.,;:]+\s+)*?[^\s(){}.,;:]+)\s+:(?:\s|$)")
HEAD = re.compile(r"^\s*(?:(?:abbrev|unfoldable|pub)\s+)*(?:data|record|module|use|open|unfolding|where|ruleset)(?=\s|$)")


def files(*ends):
    for folder, dirs, names in os.walk(os.path.join(ROOT, "crates")):
        dirs[:] = sorted(d for d in dirs if d not in ("out", "data"))
        for n in sorted(names):
            if n.endswith(ends):
                yield os.path.join(folder, n)


def kind(path):
    rel = os.path.relpath(path, os.path.join(ROOT, "crates")).split(os.sep)
    if path.endswith(".edit"):
        return "edit"
    if rel[1] == "specs":
        return "words"
    if rel[1] == "proofs":
        return "words" if len(rel) == 3 else "proof"
    return "source"


def snake(name):
    new = re.sub(r"(?<=[a-z0-9'])([A-Z]+)(?=[a-z0-9'_-]|$)", lambda m: "_" + m.group(1).lower(), name)
    new = re.sub(r"([a-z0-9])([A-Z])", lambda m: m.group(1) + "_" + m.group(2).lower(), new)
    return new.replace("-", "_")


def code_lines(text):
    for line in text.split("\n"):
        yield line.split("--")[0] if not line.lstrip().startswith("--") else ""


def declared(text):
    out = set()
    for line in code_lines(text):
        if HEAD.match(line):
            continue
        m = DECL.match(line)
        if m:
            out |= set(m.group(1).split())
    return {n for n in out if re.match(r"[a-z]", n) and re.search(r"[A-Z-]", n) and not n.startswith("c.")}


def taken(text):
    """The names that a file brings in from elsewhere than a crate of the repository."""
    out = set()
    for m in re.finditer(r"(?m)^\s*(?:ghost |pub )*use ([^\s;{]+?)\.?\{([^}]*)\}", text):
        top = m.group(1).split(".")
        if not (top[0] == "Rattle" and top[1] in OURS):
            out |= {w.strip().split(" as ")[0] for w in m.group(2).split(",")}
    return out


OURS = {d for d in os.listdir(os.path.join(ROOT, "crates"))}
texts = {p: open(p, encoding="utf-8").read() for p in files(".rt", ".antt", ".edit")}
names, where = set(), {}
for p, t in texts.items():
    if kind(p) == "words":
        for n in declared(t):
            names.add(n)
            where.setdefault(n, []).append(p)
table = {n: snake(n) for n in names if snake(n) != n}
# A lemma whose name would be that of another definition gets _lem.
every = set()
for p, t in texts.items():
    if kind(p) == "words":
        for line in code_lines(t):
            m = DECL.match(line)
            if m and not HEAD.match(line):
                every |= set(m.group(1).split())
for old in sorted(table):
    if "-" in old and not any("/specs/" in p for p in where[old]) and (table[old] in every or any(table[o] == table[old] for o in table if o != old and "-" not in o)):
        table[old] += "_lem"
table["firstAlone"] = "first_alone_of"
# Lemmas that port.py had turned already, and that would have a definition's name; a record of a plan, beside that of a query.
LEMMAS = {
    "read_word": ("parsing/proofs/", "read_word_lem"),
    "read_next": ("parsing/proofs/", "read_next_lem"),
    "record_of": ("theorems/proofs/PlanBytes", "plan_record"),
}
for p in texts if "--again" not in sys.argv else ():
    for old, (part, new) in LEMMAS.items():
        if part in p:
            texts[p] = re.sub(r"(?<![.\w-])%s(?![\w-])" % old, new, texts[p])
for p in texts if "--again" not in sys.argv else ():
    if p.endswith("query_walks/proofs/Parsing.antt"):
        texts[p] = re.sub(r"(?<![.\w-])record_of(?![\w-])", "the_record", texts[p])
was = {p: open(p, encoding="utf-8").read() for p in texts}
words = {p: set(WORD.findall("\n".join(code_lines(t)))) for p, t in texts.items()}
bad = []
back = {}
for old, new in sorted(table.items()):
    back.setdefault(new, set()).add(old)
for p, t in texts.items():
    if kind(p) != "words":
        continue
    keep = taken(t)
    here = {}
    for w in words[p]:
        here.setdefault(w if w in keep else table.get(w, w), set()).add(w)
    for new, olds in here.items():
        if len(olds) > 1:
            bad.append((p, new, sorted(olds)))
for b in bad:
    print("falls together:", os.path.relpath(b[0], ROOT), b[1], b[2])
if "--write" not in sys.argv:
    print(len(table), "names,", len(bad), "clashes")
    if "--list" in sys.argv:
        for k, v in sorted(table.items()):
            print(k, v)
    sys.exit(0)
changed = 0
for p, t in texts.items():
    keep = taken(t)
    own = declared(t) if kind(p) == "proof" else set()
    turn = {k: v for k, v in table.items() if k not in keep and k not in own}
    if kind(p) == "source":
        turn = {k: v for k, v in turn.items()}

    def one(m):
        return turn.get(m.group(0), m.group(0))

    new = WORD.sub(one, t) if kind(p) != "source" else "\n".join(WORD.sub(one, l) if not l.lstrip().startswith("//") else WORD.sub(lambda m: turn.get(m.group(0), m.group(0)) if re.search("[A-Z]", m.group(0)) else m.group(0), l) for l in t.split("\n"))
    if new != was[p]:
        open(p, "w", encoding="utf-8").write(new)
        changed += 1
# The page of contracts: Rattle makes a module specs.contracts itself.
page = os.path.join(ROOT, "crates/promises/specs/Contracts.antt")
if os.path.exists(page):
    os.rename(page, page.replace("Contracts.antt", "CallContracts.antt"))
    for p in list(files(".antt", ".rt", ".edit")):
        t = open(p, encoding="utf-8").read()
        new = t.replace("Rattle.promises.specs.Contracts", "Rattle.promises.specs.CallContracts").replace("specs/Contracts.antt", "specs/CallContracts.antt")
        if p.endswith("promises/specs/Lib.antt"):
            new = new.replace("pub mod Contracts", "pub mod CallContracts")
        if new != t:
            open(p, "w", encoding="utf-8").write(new)
# README and docs/ say the new names: camel case anywhere, dashes between backticks.
pages = [os.path.join(ROOT, "README.md")]
for folder, dirs, found in os.walk(os.path.join(ROOT, "docs")):
    pages += [os.path.join(folder, f) for f in sorted(found) if f.endswith((".md", ".svg")) and not f.startswith("PORT")]
both = set()
for p in files(".antt"):
    if kind(p) == "words":
        for line in code_lines(open(p, encoding="utf-8").read()):
            m = DECL.match(line)
            if m:
                both |= set(m.group(1).split())


def page_word(w):
    if w in table:
        return table[w]
    return snake(w) if re.match("[a-z]", w) and w not in both and snake(w) in both else w


for p in pages:
    t = open(p, encoding="utf-8").read()
    new = WORD.sub(lambda m: page_word(m.group(0)) if re.search("[a-z][A-Z]", m.group(0)) else m.group(0), t)
    new = re.sub(r"`[^`\n]+`", lambda m: WORD.sub(lambda w: page_word(w.group(0)), m.group(0)), new)
    if new != t:
        open(p, "w", encoding="utf-8").write(new)
        changed += 1
print(len(table), "names,", changed, "files")
