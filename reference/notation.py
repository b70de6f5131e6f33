"""Whether each line that the key to the notation in docs/rules.md shows stands in the definitions.

    python3 reference/notation.py      says each line that does not; the exit status is then 1
"""

import pathlib
import re
import sys

ROOT = pathlib.Path(__file__).resolve().parent.parent
HEADING = "## A key to the notation"


def shown(page):
    """The last column of the key: a line of code in each row."""
    key = page[page.index(HEADING):]
    return [re.search(r"`([^`]+)` \|$", row)[1] for row in key.splitlines() if row.startswith("| `")]


def main():
    """The exit status: 0 if each line is there."""
    definitions = "\n".join(path.read_text() for path in sorted((ROOT / "crates").glob("*/specs/**/*.antt")))
    lines = shown((ROOT / "docs" / "rules.md").read_text())
    missing = [line for line in lines if line not in definitions]
    for line in missing:
        print(f"no file of specs/ has: {line}")
    print(f"{len(lines) - len(missing)} of {len(lines)} lines of the key stand in the definitions")
    return 1 if missing or not lines else 0


if __name__ == "__main__":
    sys.exit(main())
