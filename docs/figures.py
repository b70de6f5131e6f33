#!/usr/bin/env python3
"""Writes the tables of figures in docs/PROMISES.md anew: counts from the files, seconds from what the gate printed.

    .ci/run >LOG 2>&1; python3 docs/figures.py LOG

A crate's row has its check time in that run, its lines and functions of code, its definitions and their lines, its
laws, its lines of proofs and its must-fail edits. A row of the table 'Before and after' keeps its left half; its right
half is worked out for the crates that it names. The sentences above the tables are written by hand: what they need
goes to standard output.
"""
import re
import sys
from pathlib import Path

ROOT = Path(__file__).resolve().parent.parent
PAGE = ROOT / "docs" / "PROMISES.md"


def lines_of(files):
    return [line for file in files for line in file.read_text().split("\n")[:-1]]


def matching(pattern, lines):
    return sum(1 for line in lines if re.match(pattern, line))


def crates():
    for line in (ROOT / "crates.txt").read_text().split("\n"):
        if re.match(r"[a-z_]+:", line):
            yield line.split(":")[0]


class Figures:
    """What is counted in a crate."""

    def __init__(self, name):
        folder = ROOT / "crates" / name
        code = lines_of(sorted(folder.glob("src/**/*.rt")))
        specs = lines_of(f for f in sorted(folder.glob("specs/**/*.antt")) if f.name != "Lib.antt")
        laws = lines_of(f for f in sorted(folder.glob("proofs/*.antt")) if f.name != "Lib.antt")
        proofs = lines_of(f for f in sorted(folder.glob("proofs/**/*.antt")) if f.name != "Lib.antt")
        self.functions = matching(r" *(pub )?fn (?!nothing\b)", code)
        self.code = len(code) if self.functions else 0
        self.definitions = matching(r" *((abbrev|unfoldable) pub |pub (data|record) )|pub (?!data|record|mod)", specs)
        self.specs = len(specs)
        self.laws = matching(r" *((abbrev|unfoldable) )?pub (?!mod)", laws)
        self.proofs = len(proofs)
        self.edits = len(list(folder.glob("must-fail/*.edit")))


def seconds(log):
    """The check time of each crate, and the seconds that its edits took together."""
    checks, edits = {}, {}
    for line in log.split("\n"):
        found = re.match(r"rt: (\w+) proved \((\d+) s\)", line)
        if found:
            checks[found.group(1)] = int(found.group(2))
        found = re.match(r"rt: must-fail (\w+)/\w+: refused, .*?(\d+) s\)$", line)
        if found:
            edits[found.group(1)] = edits.get(found.group(1), 0) + int(found.group(2))
    return checks, edits


def shown(n):
    return f"{n:,}" if n else "-"


def row(name, check, f):
    definitions = f"{f.definitions}, {f.specs:,}" if f.definitions else "-"
    return (
        f"| {name} | {check} s | {shown(f.code)} | {shown(f.functions)} | {definitions} | {shown(f.laws)} "
        f"| {shown(f.proofs)} | {shown(f.edits)} |"
    )


def half(names, figures, checks, edits):
    """The right half of a row of 'Before and after'."""
    count = sum(figures[name].edits for name in names)
    tried = f"{count}, {sum(edits.get(name, 0) for name in names):,} s" if count else "-"
    listed = ", ".join(f"`{name}`" for name in names)
    return f"{listed} | {' + '.join(str(checks[name]) for name in names)} s | {tried} |"


def main():
    checks, edits = seconds(Path(sys.argv[1]).read_text())
    figures = {name: Figures(name) for name in crates()}
    missing = [name for name in figures if name not in checks]
    if missing:
        sys.exit(f"figures: no check time of {', '.join(missing)}")
    total = Figures.__new__(Figures)
    for field in vars(next(iter(figures.values()))):
        setattr(total, field, sum(getattr(f, field) for f in figures.values()))
    check, tried = sum(checks.values()), sum(edits.values())
    whole = row("all", check, total).replace(f"{total.definitions}, ", f"{total.definitions:,}, ")

    out, table = [], ""
    for line in PAGE.read_text().split("\n"):
        if line.startswith("|---") and table:
            out.append(line)
            if table == "crates":
                out += [row(f"`{name}`", checks[name], f) for name, f in figures.items()] + [whole]
            continue
        if line.startswith("| crate | check |"):
            table = "crates"
        elif line.startswith("| before | check |"):
            table = "before"
        elif not line.startswith("|"):
            table = ""
        elif table == "crates":
            continue
        elif table == "before":
            cells = [cell.strip() for cell in line.strip("|").split("|")]
            names = re.findall(r"`(\w+)`", cells[3])
            right = (
                half(names, figures, checks, edits)
                if names
                else f"all {len(figures)} | {check:,} s | {total.edits}, {tried:,} s |"
            )
            line = f"| {cells[0]} | {cells[1]} | {cells[2]} | {right}"
        out.append(line)
    PAGE.write_text("\n".join(out))
    print(f"{len(figures)} crates, {check:,} s of checks; {total.edits} edits, {tried:,} s")


if __name__ == "__main__":
    main()
