"""The model's one command.

    python3 reference/main.py               checks the model
    python3 reference/main.py --faults      plants the faults
    python3 reference/main.py --shuffled    runs every plan again with its rows moved
    python3 reference/main.py --texts       compares two readers of typed queries and of sheets on many texts
"""

import sys
import time

sys.dont_write_bytecode = True

import check
import check_texts
import faults
import faults_in_engines  # each of the five notes its faults
import faults_in_meaning
import faults_in_order
import faults_in_readers
import faults_in_texts

PAIRS = 20000
MOVED = 24000  # about half of them have a table of two rows or more
DRAWN = 400
SOME_TEXTS = 1500
MANY_TEXTS = 50000
SEED = 1


def checked(lines):
    """Prints a line for each check; says whether all hold."""
    try:
        for line in lines:
            print(line, flush=True)
    except check.Wrong as wrong:
        print(f"WRONG: {wrong}")
        return False
    return True


def plant_faults():
    """Prints a line for each fault; says whether all are caught."""
    all_caught = True
    for line, caught in faults.report(DRAWN, SEED):
        print(line, flush=True)
        all_caught = all_caught and caught
    return all_caught


def check_model():
    """Document 01, then document 02's L1 and L9."""
    return checked(check.report(PAIRS, DRAWN, SEED)) and checked(check_texts.report(SOME_TEXTS, SEED))


def check_many_texts():
    """Every text, of any length."""
    return checked(check_texts.report(MANY_TEXTS, SEED, share=1, longest=None))


def check_moved():
    """The runs whose rows are moved, all of them."""
    return checked(check.report_moved(MOVED, SEED))


def main(arguments):
    """The exit status: 0 if all is well, 1 if not, 2 for a word that is no command."""
    began = time.monotonic()
    ways = {"": check_model, "--faults": plant_faults, "--shuffled": check_moved, "--texts": check_many_texts}
    way = ways.get(" ".join(arguments))
    if not way:
        print(__doc__)
        return 2
    well = way()
    print(f"{'all is well' if well else 'NOT WELL'}, {time.monotonic() - began:.0f} s")
    return 0 if well else 1


if __name__ == "__main__":
    sys.exit(main(sys.argv[1:]))
