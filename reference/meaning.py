"""What items and the catalogue give: roots, functions, values, truth, steps.

Document 01: 'Query records', the rules that evaluator and plan operators share.
Each function answers or fails; where it fails is the engine's to say.
"""

from catalogue import ELEMENT, TEXT
from cells import TRUE, Fails, boolean, is_boolean, is_integer, is_node, node, rank


def root(catalogue, k):
    """`QR` k: 'root of fragment k, counted from 1; fails if there is none'."""
    if k > len(catalogue.roots):
        raise Fails
    return node(catalogue.roots[k - 1])


def quotient(a, b):
    """'idiv (quotient cut toward zero)', 'a zero divisor ... fails'"""
    if b == 0:
        raise Fails
    magnitude = abs(a) // abs(b)
    return magnitude if (a < 0) == (b < 0) else -magnitude


def in_range(number):
    """'a result outside the integer range fails'"""
    if not is_integer(number):
        raise Fails
    return number


def arith(f, a, b):
    """`QO`: '1 add, 2 subtract, 3 multiply, 4 idiv, 5 eq, 6 lt'; a non-integer fails."""
    if not (is_integer(a) and is_integer(b)):
        raise Fails
    match f:
        case 1:
            return in_range(a + b)
        case 2:
            return in_range(a - b)
        case 3:
            return in_range(a * b)
        case 4:
            return in_range(quotient(a, b))
        case 5:
            return boolean(a == b)
        case 6:
            return boolean(a < b)


def operate(f, xs, ys):
    """`QO`: 'a side with two or more items fails; then an empty side gives the empty sequence; then ...'"""
    if len(xs) > 1 or len(ys) > 1:
        raise Fails
    if not xs or not ys:
        return []
    return [arith(f, xs[0], ys[0])]


def value(catalogue, cell):
    """`QD`: 'integer and boolean are themselves, a text gives its number, an element fails'."""
    if not is_node(cell):
        return cell
    row = catalogue.rows[rank(cell)]
    if row.kind != TEXT:
        raise Fails
    return row.prop


def truth(items):
    """`QI`: 'no items false; first item a node true; one boolean itself; one integer true unless 0; else fails'."""
    if not items:
        return False
    if is_node(items[0]):
        return True
    if len(items) > 1:
        raise Fails
    if is_boolean(items[0]):
        return items[0] == TRUE
    return items[0] != 0


# The axes: for context c and node v of one fragment.

def is_descendant(rows, c, v):
    """'descendant when c < v <= c + size(c)'"""
    return c < v <= c + rows[c].size


def is_child(rows, c, v):
    """'child also level(v) = level(c) + 1'"""
    return is_descendant(rows, c, v) and rows[v].level == rows[c].level + 1


def is_self(rows, c, v):
    """The node itself."""
    return c == v


def is_descendant_or_self(rows, c, v):
    """Descendant, or the node itself."""
    return is_descendant(rows, c, v) or is_self(rows, c, v)


def is_following(rows, c, v):
    """'following when v > c + size(c)'"""
    return v > c + rows[c].size


def is_preceding(rows, c, v):
    """'preceding when v + size(v) < c'"""
    return v + rows[v].size < c


def is_ancestor(rows, c, v):
    """'ancestor is descendant turned round'"""
    return is_descendant(rows, v, c)


def is_parent(rows, c, v):
    """'parent is the ancestor one level up'"""
    return is_ancestor(rows, c, v) and rows[v].level + 1 == rows[c].level


AXES = {1: is_child, 2: is_descendant, 3: is_descendant_or_self, 4: is_self,
        5: is_parent, 6: is_ancestor, 7: is_following, 8: is_preceding}


def passes(test, name, row):
    """`QX` tests: '0 any node, 1 element, 2 text, 3 element of that name'."""
    match test:
        case 0:
            return True
        case 1:
            return row.kind == ELEMENT
        case 2:
            return row.kind == TEXT
        case 3:
            return row.kind == ELEMENT and row.prop == name


def ranks_to_try(catalogue, axis, c):
    """'For context c and node v of one fragment': no axis leaves the fragment."""
    return catalogue.fragment_of[c]


def reach(catalogue, axis, c):
    """The ranks on the axis of context c, kept for the next time."""
    if (axis, c) not in catalogue.reached:
        on_axis, rows = AXES[axis], catalogue.rows
        catalogue.reached[axis, c] = [v for v in ranks_to_try(catalogue, axis, c) if on_axis(rows, c, v)]
    return catalogue.reached[axis, c]


def all_nodes(items):
    """`QX`: 'every item of a must be a node, else fails'."""
    if not all(is_node(item) for item in items):
        raise Fails


def step(catalogue, axis, test, name, items):
    """`QX`: 'the result has each node once, by rising rank'."""
    all_nodes(items)
    contexts = {rank(item) for item in items}
    ranks = {v for c in contexts for v in reach(catalogue, axis, c)}
    return [node(v) for v in sorted(ranks) if passes(test, name, catalogue.rows[v])]
