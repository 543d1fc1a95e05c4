"""Drafts, trees and shelves of ropes, and the scratched set, as the documents have it.

This module follows docs/ROPES.md, docs/REFUSALS.md and, for the scratched set,
docs/INTERFACES.md word by word, and shares nothing with the programs that it is
compared with. It is written to be read beside the documents, not to be fast.

Nothing here is changed in place. A call answers the new draft, tree or set, or
`Refused`, and what it was given stays as it was.

A table of rows is what the documents number nodes by. Whatever is asked of a node
is answered from the node itself with all that hangs below it, which `node_at` builds
from the table.
"""

from __future__ import annotations

from collections.abc import Sequence
from dataclasses import dataclass
from functools import cached_property
from itertools import count
from math import ceil
from typing import Generic, NamedTuple, Optional, TypeVar, Union

from reference import FIELD, RUNNERS, SPACE

# The other numbers of docs/REFUSALS.md that calls on ropes are refused with.
LEAF_SIZE = 3
NODE = 4
BUFFER = 7
ROOTS = 9
BALANCE = 10

MOST_NODES = 1023
MOST_ELEMENTS = 32_768
MOST_IN_LEAF = 64

# How much deeper than D(n) a balanced node with n elements may be.
SPARE_DEPTH = 2

Element = TypeVar("Element")


@dataclass(frozen=True)
class Refused:
    """A call that is refused, with the number of the refusal."""

    number: int


def smallest(reasons: dict[int, bool]) -> Optional[Refused]:
    """The refusal with the smallest number of those that apply, if any does."""
    numbers = [number for number, applies in reasons.items() if applies]
    return Refused(min(numbers)) if numbers else None


# Shelves


@dataclass(frozen=True)
class Shelf(Generic[Element]):
    """The elements that were put on a strip; their count is the shelf's."""

    elements: Sequence[Element]


def open_shelf(
    strip: Sequence[Element], number: int
) -> Union[Shelf[Element], Refused]:
    """The shelf over a strip, with this number as its count."""
    if len(strip) < number:
        return Refused(BUFFER)
    return Shelf(strip[:number])


# Nodes in a table


@dataclass(frozen=True)
class LeafRow:
    """A leaf in a table."""

    start: int
    size: int


@dataclass(frozen=True)
class PairRow:
    """A concatenation in a table, with the numbers of its children."""

    left: int
    right: int


Row = Union[LeafRow, PairRow]

# The row at place i is node number i.
Table = tuple[Row, ...]


def children(table: Table) -> set[int]:
    """The numbers of all nodes that are a child of another."""
    numbers: set[int] = set()
    for row in table:
        if isinstance(row, PairRow):
            numbers |= {row.left, row.right}
    return numbers


def parentless(table: Table) -> list[int]:
    """The numbers of all nodes that are no child of another, in order."""
    with_parent = children(table)
    return [number for number in range(len(table)) if number not in with_parent]


def elements_in(table: Table) -> int:
    """How many elements the leaves of a table have."""
    return sum(row.size for row in table if isinstance(row, LeafRow))


# Nodes with all that hangs below them


@dataclass(frozen=True)
class Leaf:
    """A run of elements on the strip, and its number in the table."""

    number: int
    start: int
    size: int

    @property
    def end(self) -> int:
        """The start and the size together."""
        return self.start + self.size


@dataclass(frozen=True)
class Pair:
    """Two nodes one behind the other, and the pair's number in the table."""

    number: int
    left: Node
    right: Node


Node = Union[Leaf, Pair]


def node_at(table: Table, number: int) -> Node:
    """The node of this number, with all that hangs below it."""
    row = table[number]
    if isinstance(row, LeafRow):
        return Leaf(number, row.start, row.size)
    return Pair(number, node_at(table, row.left), node_at(table, row.right))


def leaves(node: Node) -> list[Leaf]:
    """The leaves of a node from left to right."""
    if isinstance(node, Leaf):
        return [node]
    return leaves(node.left) + leaves(node.right)


def size_of(node: Node) -> int:
    """How many elements a node has."""
    return sum(leaf.size for leaf in leaves(node))


def depth_of(node: Node) -> int:
    """0 for a leaf, one more than the deeper child's for another node."""
    if isinstance(node, Leaf):
        return 0
    return 1 + max(depth_of(node.left), depth_of(node.right))


def least_depth(elements: int) -> int:
    """D(n): the least k with 2^k at least n."""
    return next(k for k in count() if 2**k >= elements)


def is_balanced(node: Node) -> bool:
    """Whether the depth is at most D(n) + 2."""
    return depth_of(node) <= least_depth(size_of(node)) + SPARE_DEPTH


# Drafts. A draft is a table that is put together row by row.


NEW_DRAFT: Table = ()


def with_leaf(draft: Table, size: int) -> Union[Table, Refused]:
    """The draft with a new leaf for so many next elements."""
    elements = elements_in(draft)
    refused = smallest(
        {
            LEAF_SIZE: size > MOST_IN_LEAF,
            SPACE: len(draft) == MOST_NODES or elements + size > MOST_ELEMENTS,
        }
    )
    return refused or (*draft, LeafRow(elements, size))


def with_pair(draft: Table, left: int, right: int) -> Union[Table, Refused]:
    """The draft with a new concatenation of these two nodes."""
    # The numbers of the nodes that exist and have no parent.
    free = parentless(draft)
    refused = smallest(
        {
            NODE: left not in free or right not in free or left == right,
            SPACE: len(draft) == MOST_NODES,
        }
    )
    return refused or (*draft, PairRow(left, right))


def seal(draft: Table) -> Union[Tree, Refused]:
    """The tree that a draft is sealed into."""
    roots = parentless(draft)
    if len(roots) != 1:
        return Refused(ROOTS)
    if not is_balanced(node_at(draft, roots[0])):
        return Refused(BALANCE)
    return Tree(draft)


# Trees


class Found(NamedTuple):
    """The place of a position, and how many nodes were met on the way to it."""

    place: int
    met: int


def found_below(node: Node, level: int) -> list[Found]:
    """What is found for each position in turn below a node of this level."""
    if isinstance(node, Leaf):
        return [Found(place, level + 1) for place in range(node.start, node.end)]
    return found_below(node.left, level + 1) + found_below(node.right, level + 1)


@dataclass(frozen=True)
class Tree:
    """A table with one root."""

    table: Table

    @cached_property
    def root(self) -> Node:
        """The one parentless node."""
        (number,) = parentless(self.table)
        return node_at(self.table, number)

    @cached_property
    def found(self) -> list[Found]:
        """What is found for each position in turn."""
        return found_below(self.root, 0)


NEW_TREE = Tree((LeafRow(0, 0),))


def place_of(tree: Tree, position: int) -> Optional[Found]:
    """The place of a position, or None if it is not below the length."""
    return tree.found[position] if position < size_of(tree.root) else None


def take(
    tree: Tree, shelf: Shelf[Element], position: int
) -> Union[Element, None, Refused]:
    """The element at a position, or None if the position has no place."""
    if any(leaf.end > len(shelf.elements) for leaf in leaves(tree.root)):
        return Refused(BUFFER)
    found = place_of(tree, position)
    return None if found is None else shelf.elements[found.place]


# Packed trees


# A leaf, or what is on the left and what is on the right.
Shape = Union[LeafRow, tuple["Shape", "Shape"]]


def packed(elements: int) -> Union[Tree, Refused]:
    """The packed tree of so many elements."""
    if elements > MOST_ELEMENTS:
        return Refused(SPACE)
    table: list[Row] = []
    put_down(shape_over(packed_leaves(elements)), table)
    return Tree(tuple(table))


def packed_leaves(elements: int) -> list[LeafRow]:
    """The leaves of the packed tree from left to right."""
    number = 1 if elements == 0 else ceil(elements / MOST_IN_LEAF)
    full = number - 1
    sizes = [MOST_IN_LEAF] * full + [elements - MOST_IN_LEAF * full]
    return [LeafRow(sum(sizes[:place]), sizes[place]) for place in range(number)]


def shape_over(some_leaves: list[LeafRow]) -> Shape:
    """The shape over some leaves, half of them, rounded up, on its left."""
    if len(some_leaves) == 1:
        return some_leaves[0]
    half = (len(some_leaves) + 1) // 2
    return shape_over(some_leaves[:half]), shape_over(some_leaves[half:])


def put_down(shape: Shape, table: list[Row]) -> int:
    """Add a shape to a table: its left, its right, then itself. Its number."""
    if isinstance(shape, LeafRow):
        table.append(shape)
    else:
        left = put_down(shape[0], table)
        right = put_down(shape[1], table)
        table.append(PairRow(left, right))
    return len(table) - 1


# Leaves started anew


def started_anew(tree: Tree) -> Tree:
    """The tree with each leaf started at the number of elements to its left."""
    rows = list(tree.table)
    to_the_left = 0
    for leaf in leaves(tree.root):
        rows[leaf.number] = LeafRow(to_the_left, leaf.size)
        to_the_left += leaf.size
    return Tree(tuple(rows))


# The scratched set


Runners = frozenset[int]

NEW_SET: Runners = frozenset()


def can_be_scratched(runner: int) -> bool:
    """Whether a runner is one that the scratched set can hold."""
    return RUNNERS[0] <= runner <= RUNNERS[1]


def with_runner(scratched: Runners, runner: int) -> Union[Runners, Refused]:
    """The set with a runner put into it."""
    return scratched | {runner} if can_be_scratched(runner) else Refused(FIELD)


def without_runner(scratched: Runners, runner: int) -> Union[Runners, Refused]:
    """The set with a runner taken out of it."""
    return scratched - {runner} if can_be_scratched(runner) else Refused(FIELD)


def is_scratched(scratched: Runners, runner: int) -> bool:
    """Whether a runner is in the set."""
    return runner in scratched
