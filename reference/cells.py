"""Items and their cells, and what a refusal is.

Document 01: 'Items and cells', 'The eight refusals', and the first sentence of 'Room'.

An item is kept as its cell everywhere, so that cells of mixed kinds compare and
order as the signed 64-bit numbers they are.
"""

from typing import NamedTuple

LEAST_INTEGER = -2147483648
GREATEST_INTEGER = 2147483647
FALSE = 2**32
TRUE = 2**32 + 1
FIRST_NODE = 2**33

MOST_CELLS = 65536


class Refused(Exception):
    """'The eight refusals': a number and a place, a byte offset."""

    def __init__(self, number, place):
        super().__init__(number, place)
        self.number = number
        self.place = place


class Written(NamedTuple):
    """The answer of a writer of text (document 02, L1 and L9): the text's bytes, the lent bytes."""
    refusal: int
    place: int
    text_bytes: int
    lent: bytes


class Fails(Exception):
    """'the query or operator fails'; the engine at work knows the place."""


def is_integer(cell):
    """'Items and cells': an integer is itself."""
    return LEAST_INTEGER <= cell <= GREATEST_INTEGER


def is_boolean(cell):
    """'Items and cells': false is 2^32 and true is 2^32 + 1."""
    return cell in (FALSE, TRUE)


def is_node(cell):
    """'Items and cells': the node of rank r is 2^33 + r."""
    return cell >= FIRST_NODE


def boolean(holds):
    """The boolean's cell."""
    return TRUE if holds else FALSE


def node(rank):
    """The cell of the node of that rank."""
    return FIRST_NODE + rank


def rank(cell):
    """The rank of a node's cell: the one way from cells back to ranks."""
    return cell - FIRST_NODE


def room(lent):
    """'Room': only the first 65,536 cells of work count."""
    return min(lent, MOST_CELLS)


def emptied(lent):
    """'The eight refusals': a refusal zeroes what was lent for writing."""
    return [0] * lent


def followed_by_zeros(written, lent):
    """'Room': all other cells end at 0, and so do plan bytes after the plan."""
    return list(written) + [0] * (lent - len(written))
