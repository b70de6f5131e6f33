#!/usr/bin/env bash
# How this repository was brought to today's Rattle: its port.py once, over a copy that passes one clause by, then spelling.py.
# port.py stops at the clause `+choice+..-spec =` of crates/typing, whose body begins on the next line: its walker finds no right side.
# The copy leaves such a clause as it is; nothing else differs.
# usage, at the top of a checkout of the landed commit: bash tools/port/turn.sh (the folder tools/port may stand elsewhere)
set -eu
here="$(cd "$(dirname "$0")" && pwd)"
copy="$(mktemp -d)"
cp -r /opt/rattle/port "$copy/port"
chmod -R u+w "$copy"
sed -i 's|^KIT = .*|KIT = "/opt/rattle"|' "$copy/port/port.py"
python3 - "$copy/port/notes/2026-11-17-the-logic-is-one-record/walk.py" <<'P'
import sys
p = sys.argv[1]
s = open(p).read()
at = "            lhs, rhs = w.fold(body[:e]), body[e + 1 :]\n"
assert s.count(at) == 1
s = s.replace(at, at + "            if not rhs:\n                return w.src[it.s : it.e]\n")
open(p, "w").write(s)
P
python3 "$copy/port/port.py"
rm -rf "$copy"
python3 "$here/spelling.py" . --write
for c in crates/*/; do (cd "$c" && rt fmt); done
