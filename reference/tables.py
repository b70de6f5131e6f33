"""A plan's tables, step by step, as markdown.

    python3 reference/tables.py FOLDER                      every table of the plan of the folder's query
    python3 reference/tables.py FOLDER 'a fault'            the same with that fault planted in the model
    python3 reference/tables.py FOLDER --shuffle SEED       every table's rows shuffled; last, the items by rising place
    python3 reference/tables.py FOLDER --turn K             table K's rows turned round, and no others
    python3 reference/tables.py --faults                    the names of the faults
    python3 reference/tables.py --page docs/guide.md        fills the page's blocks (pages.py says which there are)

The folder holds query.bin and doc.bin. A table's head has its operator's mark and its byte in the plan, so that
`refused 7 at 126` can be found. Exit status: 0; 1 where the query is refused, and the last line is chartask's; 2 where
what was asked for is not there.
"""

import pathlib
import signal
import sys

sys.dont_write_bytecode = True

import faults
import pages
import worked
from cells import Refused
from worked import Asked, Wrong


def asked_of(arguments):
    """The folder, the words of the fault, who moves rows."""
    folder, *rest = arguments
    fault, moving = [], ()
    while rest:
        word = rest.pop(0)
        if not word.startswith("--"):
            fault.append(word)
        elif word not in ("--shuffle", "--turn"):
            raise Wrong(f"there is no option {word}")
        elif moving:
            raise Wrong("rows can be moved in one way only: --shuffle SEED or --turn K, once")
        elif not rest:
            raise Wrong(f"{word} needs a {'seed' if word == '--shuffle' else 'table'} after it")
        else:
            moving = word[2:], rest.pop(0)
    return Asked(pathlib.Path(folder), " ".join(fault), moving)


def print_tables(asked):
    """All tables; then the refusal, or where rows are moved the items."""
    texts, refusal = worked.described_tables(asked)
    print("\n".join(texts))
    if asked.moving:
        print(worked.both_ends(asked), end="")
    if refusal:
        print(refusal)
    return 1 if refusal else 0


def fill(path):
    """Fills a page's blocks."""
    try:
        page = path.read_text()
        path.write_text(pages.filled(page))
    except OSError as error:
        raise Wrong(f"{path}: {error.strerror}") from None
    except UnicodeDecodeError:
        raise Wrong(f"{path} is no text") from None
    return 0


def answer(arguments):
    """The exit status."""
    match arguments:
        case ["--faults"]:
            print("\n".join(fault.name for fault in faults.FAULTS))
            return 0
        case ["--page", path]:
            return fill(pathlib.Path(path))
        case [first, *_] if not first.startswith("--"):
            return print_tables(asked_of(arguments))
        case ["--help"]:
            print(__doc__)
            return 0
    print(__doc__)
    return 2


def main(arguments):
    """A refusal is chartask's line, and what cannot be had a line that says why."""
    try:
        return answer(arguments)
    except Refused as refused:
        print(f"refused {refused.number} at {refused.place}")
        return 1
    except Wrong as wrong:
        print(f"tables: {wrong}", file=sys.stderr)
        return 2


if __name__ == "__main__":
    if hasattr(signal, "SIGPIPE"):
        signal.signal(signal.SIGPIPE, signal.SIG_DFL)  # so that `| head` ends it quietly
    sys.exit(main(sys.argv[1:]))
