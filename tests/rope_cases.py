"""Makes the stored cases of the program `rope_cases`.

    python3 tests/rope_cases.py            write all stored files
    python3 tests/rope_cases.py --check    write nothing; name each stored file that
                                           differs and end with status 1 if one does

`rope_cases` reads commands, each ended by CR LF, and answers each with one line,
ended likewise. It has one draft and one tree, both new at the start, one scratched
set, empty at the start, and a strip of 40,000 places, on which place i holds the
number i. A command is a letter and the numbers behind it, in decimal and up to
2^64 - 1, with one space before each. A call that is refused is answered `refused,`
and the number of the refusal.

    D          a new draft in place of the old: `done`
    L n        a leaf call of size n on the draft: the number of the new node
    C l r      a concatenation of nodes l and r: the number of the new node
    S          the draft is sealed into the tree: `done`
    K n        the tree becomes the packed tree of n elements: `done`
    R          the tree's leaves are started anew: `done`
    P p        the place of position p in the tree, a comma, and the number of
               nodes met; or `none`
    E s c p    a shelf is opened over the first s places of the strip, s at most
               40,000, with count c, and the element at position p is taken from it
               with the tree: the element, or `none`
    F s c p    the same with a strip of lines: the line's brief form. The line at
               place i has terminal i mod 1000, race i mod 21, pool W where i is
               even and P where it is odd, runner i mod 25, and i - 20,000 cents
    A s c p    the same with a strip of the amounts of these lines: in dollars
    G s c p    the same with a strip of latests: at an even place the line as a
               latest, given in its brief form, and at an odd place none, `empty`
    N          the draft: the number of its nodes, a space, the number of its
               elements, and each node in order with a space before it:
               `L:START:SIZE` a leaf, `C:LEFT:RIGHT:SIZE:DEPTH` a concatenation
    T          the tree: its length, its depth and the number of its root, with
               spaces between them, and its nodes as for N
    Z          a new scratched set in place of the old: `done`
    I r        runner r, 0 to 255, is put into the set: `done`
    O r        runner r is taken out: `done`
    Q r        whether runner r is in the set: `yes` or `no`

What the program must write is taken from rope_reference.py. The commands picked by
hand carry their answer as well, worked out from the documents, and the reference has
to agree with it. The list of commands is, in this order:

    the new draft and tree, and the examples of docs/ROPES.md
    each refusal at each call, at both sides of its limit, with the draft and the
        tree shown before and after
    balance: chains and bushes at depth D(n) + 2, and one deeper
    empty leaves, and concatenations that are not in the order of the strip
    shelves, and positions at the length and beyond
    packed trees: of 0 to 200 elements, around multiples of 64, and up to the limit
    drafts up to their limits of nodes and elements
    strips of lines, of amounts and of latests
    drafts at random, small and large ones
    the scratched set
"""

from __future__ import annotations

import sys
from collections.abc import Callable, Iterable, Sequence
from functools import partial
from typing import Optional, Union

sys.dont_write_bytecode = True

import rope_reference as ropes  # noqa: E402
import stored  # noqa: E402
from reference import Line, brief_line, write_dollars  # noqa: E402
from rope_reference import LeafRow, Refused, Table, Tree  # noqa: E402
from stored import ROOT, Chance, Files, ended, must_agree  # noqa: E402

ROPE_CASES = ROOT / "crates" / "rope_cases"

STRIP = range(40_000)

GREATEST = 2**64 - 1

# Numbers that would be small if only their low 8, 16 or 32 bits were looked at, and
# the ends of 63 and 64 bits.
FAR_NUMBERS = (
    *(2**bits + low for bits in (8, 16, 32) for low in (0, 1)),
    2**63 - 1,
    2**63,
    GREATEST - 63,
    GREATEST - 62,
    GREATEST - 1,
    GREATEST,
)


# The program

TextAt = Callable[[int], bytes]


def number_at(place: int) -> bytes:
    """What stands at a place of the strip of numbers."""
    return b"%d" % place


def line_at(place: int) -> Line:
    """The line at a place of the strip of lines."""
    pool = b"W" if place % 2 == 0 else b"P"
    return Line(place % 1000, place % 21, pool, place % 25, place - 20_000)


def line_text_at(place: int) -> bytes:
    """What stands at a place of the strip of lines."""
    return brief_line(line_at(place))


def amount_at(place: int) -> bytes:
    """What stands at a place of the strip of amounts."""
    return write_dollars(line_at(place).cents)


def latest_at(place: int) -> bytes:
    """What stands at a place of the strip of latests."""
    return line_text_at(place) if place % 2 == 0 else b"empty"


# What is taken by each command, from what stands at its place of the strip.
TEXTS_ON_STRIPS: dict[bytes, TextAt] = {
    b"E": number_at,
    b"F": line_text_at,
    b"A": amount_at,
    b"G": latest_at,
}


class Program:
    """The program as the reference has it, and what was said to it so far."""

    def __init__(self) -> None:
        self.draft: Table = ropes.NEW_DRAFT
        self.tree: Tree = ropes.NEW_TREE
        self.scratched: ropes.Runners = ropes.NEW_SET
        self.commands: list[bytes] = []
        self.answers: list[bytes] = []
        self._calls: dict[bytes, Callable[..., bytes]] = {
            b"D": lambda: self._change_draft(ropes.NEW_DRAFT),
            b"L": lambda size: self._add_node(ropes.with_leaf(self.draft, size)),
            b"C": lambda left, right: self._add_node(
                ropes.with_pair(self.draft, left, right)
            ),
            b"S": lambda: self._change_tree(ropes.seal(self.draft)),
            b"K": lambda elements: self._change_tree(ropes.packed(elements)),
            b"R": lambda: self._change_tree(ropes.started_anew(self.tree)),
            b"P": lambda position: place_text(self.tree, position),
            **{
                letter: partial(self._take, text_at)
                for letter, text_at in TEXTS_ON_STRIPS.items()
            },
            b"N": lambda: draft_text(self.draft),
            b"T": lambda: tree_text(self.tree),
            b"Z": lambda: self._change_set(ropes.NEW_SET),
            b"I": lambda runner: self._change_set(
                ropes.with_runner(self.scratched, runner)
            ),
            b"O": lambda runner: self._change_set(
                ropes.without_runner(self.scratched, runner)
            ),
            b"Q": lambda runner: set_text(self.scratched, runner),
        }

    def say(self, command: bytes) -> bytes:
        """Give the program a command; its answer."""
        letter, *numbers = command.split(b" ")
        answer = self._calls[letter](*map(int, numbers))
        self.commands.append(command)
        self.answers.append(answer)
        return answer

    def expect(self, command: bytes, answer: bytes) -> None:
        """Give the program a command whose answer was worked out by hand."""
        what = f"command {command!r}, number {len(self.commands)} counted from 0"
        must_agree(what, answer, self.say(command))

    def refuse(self, command: bytes, number: int) -> None:
        """Give the program a command that must be refused."""
        self.expect(command, b"refused,%d" % number)

    def _take(
        self, text_at: TextAt, places: int, number: int, position: int
    ) -> bytes:
        """Take an element from a shelf over a strip, and answer its text."""
        taken = element_at(self.tree, places, number, position)
        if isinstance(taken, Refused):
            return refusal_text(taken)
        return b"none" if taken is None else text_at(taken)

    def _change_draft(self, draft: Table) -> bytes:
        """Take another draft."""
        self.draft = draft
        return b"done"

    def _add_node(self, outcome: Union[Table, Refused]) -> bytes:
        """Take the draft with a new node, and answer the node's number."""
        if isinstance(outcome, Refused):
            return refusal_text(outcome)
        self.draft = outcome
        return b"%d" % (len(outcome) - 1)

    def _change_tree(self, outcome: Union[Tree, Refused]) -> bytes:
        """Take another tree."""
        if isinstance(outcome, Refused):
            return refusal_text(outcome)
        self.tree = outcome
        return b"done"

    def _change_set(self, outcome: Union[ropes.Runners, Refused]) -> bytes:
        """Take another scratched set."""
        if isinstance(outcome, Refused):
            return refusal_text(outcome)
        self.scratched = outcome
        return b"done"


def refusal_text(refused: Refused) -> bytes:
    """The answer to a refused call."""
    return b"refused,%d" % refused.number


def place_text(tree: Tree, position: int) -> bytes:
    """The answer to the command P."""
    found = ropes.place_of(tree, position)
    return b"none" if found is None else b"%d,%d" % found


def element_at(
    tree: Tree, places: int, number: int, position: int
) -> Union[Refused, Optional[int]]:
    """The place on the strip of the element that is taken from a shelf."""
    shelf = ropes.open_shelf(STRIP[:places], number)
    return shelf if isinstance(shelf, Refused) else ropes.take(tree, shelf, position)


def draft_text(draft: Table) -> bytes:
    """The answer to the command N."""
    front = b"%d %d" % (len(draft), ropes.elements_in(draft))
    return b" ".join((front, *node_texts(draft)))


def tree_text(tree: Tree) -> bytes:
    """The answer to the command T."""
    root = tree.root
    numbers = (ropes.size_of(root), ropes.depth_of(root), root.number)
    return b" ".join((b"%d %d %d" % numbers, *node_texts(tree.table)))


def node_texts(table: Table) -> list[bytes]:
    """Each node of a table, as N and T show it."""
    return [node_text(table, number) for number in range(len(table))]


def node_text(table: Table, number: int) -> bytes:
    """A node as N and T show it."""
    row = table[number]
    if isinstance(row, LeafRow):
        return b"L:%d:%d" % (row.start, row.size)
    node = ropes.node_at(table, number)
    numbers = (row.left, row.right, ropes.size_of(node), ropes.depth_of(node))
    return b"C:%d:%d:%d:%d" % numbers


def set_text(scratched: ropes.Runners, runner: int) -> bytes:
    """The answer to the command Q."""
    return b"yes" if ropes.is_scratched(scratched, runner) else b"no"


# Dialogues: commands with answers worked out by hand, each with ` = ` between the
# two, and with `;` or a new line between one command and the next. A line that
# starts with spaces goes on with the line before.


NEW_THINGS = b"""
T = 0 0 0 L:0:0; N = 0 0; S = refused,9; T = 0 0 0 L:0:0; N = 0 0
P 0 = none; P 1 = none; P 18446744073709551615 = none
E 0 0 0 = none; E 1 0 0 = none; E 1 1 0 = none; E 40000 40000 39999 = none
E 0 1 0 = refused,7; E 40000 40001 0 = refused,7
E 5 18446744073709551615 0 = refused,7
R = done; T = 0 0 0 L:0:0
C 0 0 = refused,4; C 0 1 = refused,4; C 1 0 = refused,4; N = 0 0
Q 0 = no; Q 1 = no; Q 24 = no; Q 25 = no; Q 255 = no
"""

# The packed tree of 129 elements, and the chains of six and of seven leaves.
DOCUMENT_EXAMPLES = b"""
K 129 = done; T = 129 2 4 L:0:64 L:64:64 C:0:1:128:1 L:128:1 C:2:3:129:2
P 0 = 0,3; P 63 = 63,3; P 64 = 64,3; P 127 = 127,3; P 128 = 128,2; P 129 = none
E 129 129 0 = 0; E 129 129 64 = 64; E 129 129 128 = 128; E 129 129 129 = none

D = done; S = refused,9; N = 0 0
T = 129 2 4 L:0:64 L:64:64 C:0:1:128:1 L:128:1 C:2:3:129:2

D = done; L 1 = 0; L 1 = 1; L 1 = 2; L 1 = 3; L 1 = 4; L 1 = 5
C 0 1 = 6; C 6 2 = 7; C 7 3 = 8; C 8 4 = 9; C 9 5 = 10; S = done
T = 6 5 10 L:0:1 L:1:1 L:2:1 L:3:1 L:4:1 L:5:1 C:0:1:2:1 C:6:2:3:2 C:7:3:4:3 C:8:4:5:4
    C:9:5:6:5
P 0 = 0,6; P 1 = 1,6; P 2 = 2,5; P 3 = 3,4; P 4 = 4,3; P 5 = 5,2; P 6 = none

D = done; L 1 = 0; L 1 = 1; L 1 = 2; L 1 = 3; L 1 = 4; L 1 = 5; L 1 = 6
C 0 1 = 7; C 7 2 = 8; C 8 3 = 9; C 9 4 = 10; C 10 5 = 11; S = refused,9
C 11 6 = 12; S = refused,10
T = 6 5 10 L:0:1 L:1:1 L:2:1 L:3:1 L:4:1 L:5:1 C:0:1:2:1 C:6:2:3:2 C:7:3:4:3 C:8:4:5:4
    C:9:5:6:5
N = 13 7 L:0:1 L:1:1 L:2:1 L:3:1 L:4:1 L:5:1 L:6:1 C:0:1:2:1 C:7:2:3:2 C:8:3:4:3
    C:9:4:5:4 C:10:5:6:5 C:11:6:7:6
"""

LEAF_CALLS = b"""
D = done; L 65 = refused,3; N = 0 0; L 64 = 0; N = 1 64 L:0:64
L 65 = refused,3; L 66 = refused,3; L 127 = refused,3; L 128 = refused,3
L 320 = refused,3; L 32768 = refused,3; L 32769 = refused,3
L 18446744073709551615 = refused,3; L 18446744073709551552 = refused,3
N = 1 64 L:0:64; S = done; T = 64 0 0 L:0:64; P 0 = 0,1; P 63 = 63,1; P 64 = none
L 0 = 1; L 1 = 2; L 65 = refused,3; L 63 = 3
N = 4 128 L:0:64 L:64:0 L:64:1 L:65:63
"""

CONCATENATIONS = b"""
D = done; C 0 0 = refused,4; C 0 1 = refused,4
L 3 = 0; C 0 0 = refused,4; C 0 1 = refused,4; C 1 0 = refused,4; C 1 1 = refused,4
N = 1 3 L:0:3; L 2 = 1; C 0 0 = refused,4; C 1 1 = refused,4; C 0 2 = refused,4
C 2 0 = refused,4; C 2 2 = refused,4; C 2 3 = refused,4
C 0 18446744073709551615 = refused,4; C 18446744073709551615 1 = refused,4
C 18446744073709551615 18446744073709551615 = refused,4
C 18446744073709551614 18446744073709551615 = refused,4
N = 2 5 L:0:3 L:3:2; C 1 0 = 2; N = 3 5 L:0:3 L:3:2 C:1:0:5:1
C 0 1 = refused,4; C 1 0 = refused,4; C 0 2 = refused,4; C 2 0 = refused,4
C 1 2 = refused,4; C 2 1 = refused,4; C 2 2 = refused,4; C 2 3 = refused,4
C 3 2 = refused,4; C 3 3 = refused,4; N = 3 5 L:0:3 L:3:2 C:1:0:5:1
L 1 = 3; C 3 0 = refused,4; C 0 3 = refused,4; C 3 1 = refused,4; C 1 3 = refused,4
C 0 0 = refused,4; C 3 3 = refused,4; C 3 4 = refused,4; C 4 2 = refused,4
N = 4 6 L:0:3 L:3:2 C:1:0:5:1 L:5:1
C 2 3 = 4; C 2 3 = refused,4; C 3 2 = refused,4; C 4 4 = refused,4
N = 5 6 L:0:3 L:3:2 C:1:0:5:1 L:5:1 C:2:3:6:2
"""

# No parentless node, one and several; a draft is sealed more than once.
SEALING = b"""
K 2 = done; D = done; S = refused,9; T = 2 0 0 L:0:2
L 0 = 0; S = done; T = 0 0 0 L:0:0; S = done; T = 0 0 0 L:0:0
L 7 = 1; S = refused,9; T = 0 0 0 L:0:0; N = 2 7 L:0:0 L:0:7
C 1 0 = 2; S = done; T = 7 1 2 L:0:0 L:0:7 C:1:0:7:1
L 1 = 3; L 1 = 4; S = refused,9; C 3 4 = 5; S = refused,9
T = 7 1 2 L:0:0 L:0:7 C:1:0:7:1
N = 6 9 L:0:0 L:0:7 C:1:0:7:1 L:7:1 L:8:1 C:3:4:2:1
C 5 2 = 6; S = done; T = 9 2 6 L:0:0 L:0:7 C:1:0:7:1 L:7:1 L:8:1 C:3:4:2:1 C:5:2:9:2
N = 7 9 L:0:0 L:0:7 C:1:0:7:1 L:7:1 L:8:1 C:3:4:2:1 C:5:2:9:2
K 1 = done; T = 1 0 0 L:0:1
S = done; T = 9 2 6 L:0:0 L:0:7 C:1:0:7:1 L:7:1 L:8:1 C:3:4:2:1 C:5:2:9:2
"""

# A draft goes its own way once it is sealed, and so does the tree.
DRAFT_AND_TREE_APART = b"""
D = done; L 2 = 0; L 1 = 1; C 1 0 = 2; S = done; T = 3 1 2 L:0:2 L:2:1 C:1:0:3:1
L 4 = 3; N = 4 7 L:0:2 L:2:1 C:1:0:3:1 L:3:4; T = 3 1 2 L:0:2 L:2:1 C:1:0:3:1
R = done; T = 3 1 2 L:1:2 L:0:1 C:1:0:3:1; N = 4 7 L:0:2 L:2:1 C:1:0:3:1 L:3:4
S = refused,9; T = 3 1 2 L:1:2 L:0:1 C:1:0:3:1
K 4 = done; T = 4 0 0 L:0:4; N = 4 7 L:0:2 L:2:1 C:1:0:3:1 L:3:4
D = done; N = 0 0; T = 4 0 0 L:0:4; L 1 = 0; T = 4 0 0 L:0:4
D = done; L 5 = 0; L 6 = 1; C 0 1 = 2; S = done
T = 11 1 2 L:0:5 L:5:6 C:0:1:11:1
"""

# Only the root has to be balanced; D(0) is 0; and 9 goes before 10.
BALANCE_BY_HAND = b"""
D = done; L 1 = 0; L 1 = 1; C 1 0 = 2; L 1 = 3; C 3 2 = 4; L 1 = 5; C 5 4 = 6
L 1 = 7; C 7 6 = 8; L 1 = 9; C 9 8 = 10; S = done; L 1 = 11; C 11 10 = 12
S = refused,10; L 64 = 13; S = refused,9; C 13 12 = 14; S = done
T = 71 7 14 L:0:1 L:1:1 C:1:0:2:1 L:2:1 C:3:2:3:2 L:3:1 C:5:4:4:3 L:4:1 C:7:6:5:4
    L:5:1 C:9:8:6:5 L:6:1 C:11:10:7:6 L:7:64 C:13:12:71:7

D = done; L 0 = 0; L 0 = 1; C 0 1 = 2; S = done; T = 0 1 2 L:0:0 L:0:0 C:0:1:0:1
L 0 = 3; C 2 3 = 4; S = done; T = 0 2 4 L:0:0 L:0:0 C:0:1:0:1 L:0:0 C:2:3:0:2
L 0 = 5; C 4 5 = 6; S = refused,10
T = 0 2 4 L:0:0 L:0:0 C:0:1:0:1 L:0:0 C:2:3:0:2
N = 7 0 L:0:0 L:0:0 C:0:1:0:1 L:0:0 C:2:3:0:2 L:0:0 C:4:5:0:3
L 3 = 7; C 6 7 = 8; S = done; P 0 = 0,2; P 2 = 2,2; P 3 = none

D = done; L 0 = 0; L 0 = 1; L 0 = 2; L 0 = 3; C 0 1 = 4; C 2 3 = 5; C 4 5 = 6
S = done; P 0 = none; E 0 0 0 = none; E 7 7 0 = none; E 7 8 0 = refused,7
L 0 = 7; L 0 = 8; L 0 = 9; L 0 = 10; C 7 8 = 11; C 9 10 = 12; C 11 12 = 13
S = refused,9; C 13 6 = 14; S = refused,10
T = 0 2 6 L:0:0 L:0:0 L:0:0 L:0:0 C:0:1:0:1 C:2:3:0:1 C:4:5:0:2

D = done; L 0 = 0; L 1 = 1; C 0 1 = 2; L 0 = 3; C 3 2 = 4; S = done; L 0 = 5
C 5 4 = 6; S = refused,10; T = 1 2 4 L:0:0 L:0:1 C:0:1:1:1 L:1:0 C:3:2:1:2

D = done; L 0 = 0; L 1 = 1; C 0 1 = 2; L 0 = 3; C 3 2 = 4; S = done; L 1 = 5
C 5 4 = 6; S = done
T = 2 3 6 L:0:0 L:0:1 C:0:1:1:1 L:1:0 C:3:2:1:2 L:1:1 C:5:4:2:3
L 0 = 7; C 7 6 = 8; S = refused,10

D = done; L 1 = 0; L 0 = 1; L 0 = 2; C 1 2 = 3; L 0 = 4; C 3 4 = 5; L 0 = 6; C 5 6 = 7
S = refused,9; C 0 7 = 8; S = refused,10
N = 9 1 L:0:1 L:1:0 L:1:0 C:1:2:0:1 L:1:0 C:3:4:0:2 L:1:0 C:5:6:0:3 C:0:7:1:4
T = 2 3 6 L:0:0 L:0:1 C:0:1:1:1 L:1:0 C:3:2:1:2 L:1:1 C:5:4:2:3
"""

EMPTY_LEAVES = b"""
D = done; L 0 = 0; L 2 = 1; L 0 = 2; L 0 = 3; L 3 = 4; L 0 = 5
C 0 1 = 6; C 2 3 = 7; C 4 5 = 8; C 6 7 = 9; C 9 8 = 10; S = done
T = 5 3 10 L:0:0 L:0:2 L:2:0 L:2:0 L:2:3 L:5:0 C:0:1:2:1 C:2:3:0:1 C:4:5:3:1 C:6:7:2:2
    C:9:8:5:3
P 0 = 0,4; P 1 = 1,4; P 2 = 2,3; P 3 = 3,3; P 4 = 4,3; P 5 = none
E 5 5 0 = 0; E 5 5 1 = 1; E 5 5 2 = 2; E 5 5 4 = 4; E 5 5 5 = none; E 5 4 0 = refused,7
R = done
T = 5 3 10 L:0:0 L:0:2 L:2:0 L:2:0 L:2:3 L:5:0 C:0:1:2:1 C:2:3:0:1 C:4:5:3:1 C:6:7:2:2
    C:9:8:5:3

D = done; L 0 = 0; L 2 = 1; L 0 = 2; L 3 = 3; L 0 = 4
C 4 3 = 5; C 2 5 = 6; C 1 0 = 7; C 6 7 = 8; S = done
T = 5 3 8 L:0:0 L:0:2 L:2:0 L:2:3 L:5:0 C:4:3:3:1 C:2:5:3:2 C:1:0:2:1 C:6:7:5:3
P 0 = 2,4; P 1 = 3,4; P 2 = 4,4; P 3 = 0,3; P 4 = 1,3; P 5 = none
E 5 5 0 = 2; E 5 5 1 = 3; E 5 5 2 = 4; E 5 5 3 = 0; E 5 5 4 = 1; E 5 5 5 = none
E 5 4 3 = refused,7; R = done
T = 5 3 8 L:5:0 L:3:2 L:0:0 L:0:3 L:0:0 C:4:3:3:1 C:2:5:3:2 C:1:0:2:1 C:6:7:5:3
P 0 = 0,4; P 1 = 1,4; P 2 = 2,4; P 3 = 3,3; P 4 = 4,3; P 5 = none
E 5 5 0 = 0; E 5 5 1 = 1; E 5 5 2 = 2; E 5 5 3 = 3; E 5 5 4 = 4; E 5 5 5 = none
N = 9 5 L:0:0 L:0:2 L:2:0 L:2:3 L:5:0 C:4:3:3:1 C:2:5:3:2 C:1:0:2:1 C:6:7:5:3
"""

OUT_OF_ORDER = b"""
D = done; L 2 = 0; L 3 = 1; C 1 0 = 2; S = done; T = 5 1 2 L:0:2 L:2:3 C:1:0:5:1
P 0 = 2,2; P 1 = 3,2; P 2 = 4,2; P 3 = 0,2; P 4 = 1,2; P 5 = none
E 5 5 0 = 2; E 5 5 1 = 3; E 5 5 2 = 4; E 5 5 3 = 0; E 5 5 4 = 1; E 5 5 5 = none
R = done; T = 5 1 2 L:3:2 L:0:3 C:1:0:5:1
P 0 = 0,2; P 1 = 1,2; P 2 = 2,2; P 3 = 3,2; P 4 = 4,2; P 5 = none
E 5 5 0 = 0; E 5 5 1 = 1; E 5 5 2 = 2; E 5 5 3 = 3; E 5 5 4 = 4; E 5 5 5 = none
R = done; T = 5 1 2 L:3:2 L:0:3 C:1:0:5:1; N = 3 5 L:0:2 L:2:3 C:1:0:5:1
S = done; T = 5 1 2 L:0:2 L:2:3 C:1:0:5:1; P 0 = 2,2

D = done; L 1 = 0; L 2 = 1; L 3 = 2; L 4 = 3; C 3 1 = 4; C 2 0 = 5; C 5 4 = 6; S = done
T = 10 2 6 L:0:1 L:1:2 L:3:3 L:6:4 C:3:1:6:1 C:2:0:4:1 C:5:4:10:2
P 0 = 3,3; P 1 = 4,3; P 2 = 5,3; P 3 = 0,3; P 4 = 6,3; P 5 = 7,3; P 6 = 8,3; P 7 = 9,3
P 8 = 1,3; P 9 = 2,3; P 10 = none; E 10 9 0 = refused,7; E 10 10 8 = 1
R = done; T = 10 2 6 L:3:1 L:8:2 L:0:3 L:4:4 C:3:1:6:1 C:2:0:4:1 C:5:4:10:2
P 0 = 0,3; P 3 = 3,3; P 4 = 4,3; P 7 = 7,3; P 8 = 8,3; P 9 = 9,3; P 10 = none
"""

SHELVES = b"""
K 5 = done; E 5 5 0 = 0; E 5 5 4 = 4; E 5 5 5 = none; E 5 5 6 = none
E 5 4 0 = refused,7; E 4 5 0 = refused,7; E 4 4 0 = refused,7; E 4 4 5 = refused,7
E 5 6 0 = refused,7; E 6 6 5 = none; E 6 6 4 = 4; E 6 5 4 = 4; E 0 0 0 = refused,7
E 0 0 5 = refused,7; E 1 1 0 = refused,7; E 40000 0 0 = refused,7
E 40000 4 0 = refused,7; E 40000 5 0 = 0; E 40000 5 4 = 4; E 40000 5 5 = none
E 40000 40000 4 = 4; E 40000 40000 5 = none; E 40000 40000 39999 = none
E 40000 40001 0 = refused,7; E 39999 40000 0 = refused,7; E 40000 39999 0 = 0
E 40000 65536 0 = refused,7; E 40000 65541 0 = refused,7
E 40000 4294967301 0 = refused,7; E 40000 9223372036854775808 0 = refused,7
E 5 18446744073709551615 0 = refused,7; E 40000 18446744073709551615 0 = refused,7
E 0 18446744073709551615 18446744073709551615 = refused,7
E 40000 5 65536 = none; E 40000 5 4294967296 = none; E 40000 5 4294967300 = none
E 40000 5 18446744073709551615 = none; E 40000 4 18446744073709551615 = refused,7
T = 5 0 0 L:0:5; P 4 = 4,1; P 5 = none; P 6 = none; P 256 = none; P 65536 = none
P 4294967296 = none; P 9223372036854775808 = none; P 18446744073709551615 = none
K 0 = done; E 0 0 0 = none; E 0 0 18446744073709551615 = none; E 0 1 0 = refused,7
"""

PACKED_BY_HAND = b"""
K 0 = done; T = 0 0 0 L:0:0; P 0 = none; K 1 = done; T = 1 0 0 L:0:1; P 0 = 0,1
K 64 = done; T = 64 0 0 L:0:64; K 65 = done; T = 65 1 2 L:0:64 L:64:1 C:0:1:65:1
P 63 = 63,2; P 64 = 64,2; P 65 = none
K 128 = done; T = 128 1 2 L:0:64 L:64:64 C:0:1:128:1
K 192 = done; T = 192 2 4 L:0:64 L:64:64 C:0:1:128:1 L:128:64 C:2:3:192:2
K 193 = done
T = 193 2 6 L:0:64 L:64:64 C:0:1:128:1 L:128:64 L:192:1 C:3:4:65:1 C:2:5:193:2
K 257 = done
T = 257 3 8 L:0:64 L:64:64 C:0:1:128:1 L:128:64 C:2:3:192:2 L:192:64 L:256:1
    C:5:6:65:1 C:4:7:257:3
P 0 = 0,4; P 127 = 127,4; P 128 = 128,3; P 191 = 191,3; P 192 = 192,3; P 256 = 256,3
P 257 = none; E 257 257 256 = 256; E 257 256 0 = refused,7; R = done
T = 257 3 8 L:0:64 L:64:64 C:0:1:128:1 L:128:64 C:2:3:192:2 L:192:64 L:256:1
    C:5:6:65:1 C:4:7:257:3
K 6 = done; K 32769 = refused,8; T = 6 0 0 L:0:6; K 32770 = refused,8
K 65536 = refused,8; K 65541 = refused,8; K 4294967296 = refused,8
K 4294967301 = refused,8; K 9223372036854775808 = refused,8
K 18446744073709551552 = refused,8; K 18446744073709551553 = refused,8
K 18446744073709551615 = refused,8; T = 6 0 0 L:0:6; P 5 = 5,1; P 6 = none
K 32768 = done; P 0 = 0,10; P 16383 = 16383,10; P 16384 = 16384,10
P 32767 = 32767,10; P 32768 = none; K 32769 = refused,8; P 32767 = 32767,10
E 32768 32768 32767 = 32767; E 32768 32768 32768 = none; E 32767 32767 0 = refused,7
E 32767 32768 0 = refused,7; E 40000 32767 0 = refused,7; E 40000 32768 0 = 0
E 40000 40000 32767 = 32767; E 40000 40000 32768 = none
K 32767 = done; P 32766 = 32766,10; P 32767 = none; E 40000 32767 32766 = 32766
E 40000 32766 0 = refused,7; D = done; L 9 = 0; S = done; T = 9 0 0 L:0:9
"""

SCRATCHED = b"""
Z = done; Q 5 = no; I 5 = done; Q 5 = yes; Q 4 = no; Q 6 = no; I 5 = done; Q 5 = yes
O 6 = done; Q 5 = yes; Q 6 = no; O 5 = done; Q 5 = no; O 5 = done; Q 5 = no
I 1 = done; I 24 = done; Q 1 = yes; Q 24 = yes; Q 0 = no; Q 25 = no; Q 2 = no
I 0 = refused,2; I 25 = refused,2; O 0 = refused,2; O 25 = refused,2
I 255 = refused,2; O 255 = refused,2; Q 0 = no; Q 25 = no; Q 255 = no
Q 1 = yes; Q 24 = yes; O 1 = done; Q 1 = no; Q 24 = yes; O 24 = done; Q 24 = no
I 7 = done; I 8 = done; Z = done; Q 7 = no; Q 8 = no; I 7 = done; Z = done; O 7 = done
Q 7 = no; D = done; K 3 = done; I 9 = done; D = done; K 0 = done; Q 9 = yes
"""


def hold(program: Program, dialogue: bytes) -> None:
    """Give the program the commands of a dialogue."""
    for line in dialogue.replace(b"\n    ", b" ").splitlines():
        for exchange in filter(None, line.split(b";")):
            command, _, answer = exchange.strip().partition(b" = ")
            program.expect(command, answer)


# Steps that many cases take


def leaf(program: Program, size: int) -> int:
    """Add a leaf, which must not be refused. Its number."""
    number = len(program.draft)
    program.expect(b"L %d" % size, b"%d" % number)
    return number


def pair(program: Program, left: int, right: int) -> int:
    """Concatenate two nodes, which must not be refused. The new node's number."""
    number = len(program.draft)
    program.expect(b"C %d %d" % (left, right), b"%d" % number)
    return number


def chain(program: Program, node: int, sizes: Iterable[int]) -> int:
    """Put a new leaf of each size behind a node or before it by turns. The top."""
    for turn, size in enumerate(sizes):
        new = leaf(program, size)
        node = pair(program, new, node) if turn % 2 else pair(program, node, new)
    return node


def put_together(program: Program, nodes: Iterable[int]) -> int:
    """Put nodes together two by two, level by level. The top."""
    waiting = list(nodes)
    while len(waiting) > 1:
        waiting.append(pair(program, waiting.pop(0), waiting.pop(0)))
    return waiting[0]


def bush(program: Program, sizes: Iterable[int]) -> int:
    """Put new leaves of these sizes together; over m leaves, to depth D(m). The top."""
    return put_together(program, [leaf(program, size) for size in sizes])


def shares(total: int, number: int) -> list[int]:
    """So many leaf sizes with this total: full ones while there are enough elements."""
    sizes = []
    for _ in range(number):
        sizes.append(min(total, ropes.MOST_IN_LEAF))
        total -= sizes[-1]
    return sizes


def show(program: Program) -> None:
    """Ask for the draft and the tree."""
    program.say(b"N")
    program.say(b"T")


def length_of(program: Program) -> int:
    """The length of the program's tree."""
    return ropes.size_of(program.tree.root)


def ask_places(program: Program, positions: Iterable[int]) -> None:
    """Ask for the places of these positions."""
    for position in positions:
        program.say(b"P %d" % position)


def take_elements(program: Program, positions: Iterable[int]) -> None:
    """Take the elements at these positions from a shelf of the tree's length."""
    length = length_of(program)
    for position in positions:
        program.say(b"E %d %d %d" % (length, length, position))


def take_in_strip_order(program: Program, positions: Iterable[int]) -> None:
    """Take elements with a tree whose reading is the shelf."""
    length = length_of(program)
    for position in positions:
        answer = b"%d" % position if position < length else b"none"
        program.expect(b"E %d %d %d" % (length, length, position), answer)


def some_positions(length: int) -> list[int]:
    """Positions at the ends, at ends of leaves of 64, in between, and beyond."""
    around = (0, 1, 63, 64, length // 3, length // 2, length - 1, length, length + 1)
    return sorted({position for position in around if position >= 0})


# Numbers far beyond every limit


def say_far_numbers(program: Program) -> None:
    """Far numbers at every call that takes numbers of that size."""
    hold(program, b"D = done; L 1 = 0; L 2 = 1; L 3 = 2; C 0 1 = 3; K 70 = done")
    show(program)
    for far in FAR_NUMBERS:
        program.refuse(b"L %d" % far, ropes.LEAF_SIZE)
        program.refuse(b"C %d 2" % far, ropes.NODE)
        program.refuse(b"C 3 %d" % far, ropes.NODE)
        program.expect(b"P %d" % far, b"none")
        program.expect(b"E 40000 40000 %d" % far, b"none")
        if far > ropes.MOST_ELEMENTS:
            program.refuse(b"K %d" % far, ropes.SPACE)
            program.refuse(b"E 40000 %d 0" % far, ropes.BUFFER)
    show(program)


# Balance


def balance_of_chains(program: Program) -> None:
    """Chains of every depth d that their leaves allow, around the limit.

    A chain is balanced when D(n) is at least d - 2: when n is above 2^(d - 3), or d
    is 2. The longest here has 13 leaves and needs 513 elements.
    """
    for depth in range(2, 13):
        enough = 0 if depth == 2 else 2 ** (depth - 3) + 1
        chain_of(program, depth, enough, depth % 2 == 0)
        program.expect(b"S", b"done")
        if enough > 0:
            chain_of(program, depth, enough - 1, depth % 2 == 0)
            program.refuse(b"S", ropes.BALANCE)
        show(program)


def chain_of(program: Program, depth: int, total: int, turned: bool) -> None:
    """A new draft: a chain of this depth, with its full leaves first or last."""
    program.expect(b"D", b"done")
    sizes = shares(total, depth + 1)
    if turned:
        sizes.reverse()
    chain(program, leaf(program, sizes[0]), sizes[1:])


def balance_of_bushes(program: Program) -> None:
    """Drafts of 2^k elements and depth k + 2, which D(n) + 2 just allows.

    With an empty leaf more, such a draft is one too deep. With a leaf of one element
    more it has 2^k + 1 elements and depth k + 3, which is just allowed again; and
    with an empty leaf behind that it is one too deep.
    """
    for power in (7, 9, 10, 12):
        just_balanced(program, power)
        chain(program, len(program.draft) - 1, (0,))
        program.refuse(b"S", ropes.BALANCE)
    for power in (8, 11, 14):
        just_balanced(program, power)
        top = chain(program, len(program.draft) - 1, (1,))
        program.expect(b"S", b"done")
        ask_places(program, some_positions(2**power + 1))
        chain(program, top, (0,))
        program.refuse(b"S", ropes.BALANCE)
        program.expect(b"P %d" % 2**power, b"%d,2" % 2**power)


def just_balanced(program: Program, power: int) -> None:
    """A new draft of 2^power elements and depth power + 2, in full leaves.

    Above 16 leaves, a bush over all but eight of them is as deep as one over all would
    be, power - 6, and the eight one by one make it power + 2. For fewer leaves, empty
    ones make up for what is missing.
    """
    program.expect(b"D", b"done")
    full = 2**power // ropes.MOST_IN_LEAF
    in_bush = max(full - 8, 1)
    top = bush(program, [64] * in_bush)
    top = chain(program, top, [64] * (full - in_bush))
    depth = ropes.depth_of(ropes.node_at(program.draft, top))
    chain(program, top, [0] * (power + 2 - depth))
    program.expect(b"S", b"done")


# Orders other than the strip's


def readings_of_turned_drafts(program: Program) -> None:
    """All positions of some drafts, before their leaves are started anew and after."""
    for sizes, order in (
        ((3, 0, 5, 1, 0, 2, 4), (6, 2, 4, 0, 5, 1, 3)),
        ((1, 2, 3, 4, 5, 6, 7, 8), (7, 6, 5, 4, 3, 2, 1, 0)),
        ((64, 1, 20, 0, 7), (3, 1, 4, 0, 2)),
    ):
        program.expect(b"D", b"done")
        for size in sizes:
            leaf(program, size)
        put_together(program, order)
        program.expect(b"S", b"done")
        whole = range(sum(sizes) + 2)
        program.say(b"T")
        ask_places(program, whole)
        take_elements(program, whole)
        program.expect(b"R", b"done")
        program.say(b"T")
        ask_places(program, whole)
        take_in_strip_order(program, whole)
        program.say(b"N")


# Packed trees


def small_packed_trees(program: Program) -> None:
    """The packed trees of 0 to 200 elements, and each position of some."""
    for elements in range(201):
        program.expect(b"K %d" % elements, b"done")
        program.say(b"T")
    for elements in (66, 200):
        program.expect(b"K %d" % elements, b"done")
        ask_places(program, range(elements + 2))
    program.expect(b"K 130", b"done")
    take_in_strip_order(program, range(132))


def larger_packed_trees(program: Program) -> None:
    """Packed trees around multiples of 64; those of up to 33 leaves are shown."""
    multiples = (4, 5, 6, 7, 8, 9, 11, 13, 15, 16, 17, 23, 31, 32, 33)
    large = (63, 64, 65, 100, 127, 128, 129, 255, 256, 257, 300, 383, 511)
    for leaves in (*multiples, *large):
        for step in (-1, 0, 1):
            elements = 64 * leaves + step
            program.expect(b"K %d" % elements, b"done")
            if leaves in multiples or elements == 64 * 100 + 1:
                program.say(b"T")
            program.say(b"P %d" % (elements // 2))
            program.say(b"P %d" % (elements - 1))
            program.expect(b"P %d" % elements, b"none")
    for elements in (32_640, 32_704, 32_705, 32_766, 32_767):
        program.expect(b"K %d" % elements, b"done")
        ask_places(program, some_positions(elements))
        take_in_strip_order(program, some_positions(elements))
    program.say(b"T")


def full_packed_trees(program: Program) -> None:
    """Packed trees with 2^k full leaves: all of them have level k."""
    for level in range(10):
        elements = 64 * 2**level
        program.expect(b"K %d" % elements, b"done")
        for position in some_positions(elements):
            met = b"%d,%d" % (position, level + 1)
            program.expect(b"P %d" % position, met if position < elements else b"none")
    program.say(b"T")
    program.expect(b"R", b"done")
    take_in_strip_order(program, some_positions(32_768))


# The limits of drafts


def full_of_elements(program: Program) -> None:
    """32,768 elements, then empty leaves, then concatenations up to 1,023 nodes."""
    program.expect(b"D", b"done")
    for _ in range(511):
        leaf(program, 64)
    leaf(program, 62)
    program.refuse(b"L 3", ropes.SPACE)
    program.refuse(b"L 64", ropes.SPACE)
    program.refuse(b"L 65", ropes.LEAF_SIZE)
    leaf(program, 1)
    program.refuse(b"L 2", ropes.SPACE)
    leaf(program, 0)
    leaf(program, 1)
    program.say(b"N")
    program.refuse(b"L 1", ropes.SPACE)
    program.refuse(b"L 64", ropes.SPACE)
    program.refuse(b"L 65", ropes.LEAF_SIZE)
    program.refuse(b"L %d" % GREATEST, ropes.LEAF_SIZE)
    program.say(b"N")
    leaf(program, 0)
    program.refuse(b"L 1", ropes.SPACE)
    leaf(program, 0)
    program.refuse(b"S", ropes.ROOTS)
    # The 517 leaves two by two, level by level: node 517 + i is over 2i and 2i + 1.
    for step in range(506):
        pair(program, 2 * step, 2 * step + 1)
    program.say(b"N")
    refuse_further_nodes(program, 1012, 1013)


def refuse_further_nodes(program: Program, one: int, other: int) -> None:
    """Every refusal of a draft with 1,023 nodes, of which these two are parentless.

    Node 0 must have a parent.
    """
    program.refuse(b"C %d %d" % (one, other), ropes.SPACE)
    program.refuse(b"C %d %d" % (other, one), ropes.SPACE)
    program.refuse(b"C %d %d" % (one, one), ropes.NODE)
    program.refuse(b"C %d 0" % one, ropes.NODE)
    program.refuse(b"C 0 %d" % other, ropes.NODE)
    program.refuse(b"C %d 1023" % one, ropes.NODE)
    program.refuse(b"C 1023 %d" % other, ropes.NODE)
    program.refuse(b"C %d %d" % (one, GREATEST), ropes.NODE)
    refuse_further_leaves(program)
    program.refuse(b"S", ropes.ROOTS)
    program.say(b"N")


def refuse_further_leaves(program: Program) -> None:
    """Leaf calls on a draft with 1,023 nodes."""
    program.refuse(b"L 0", ropes.SPACE)
    program.refuse(b"L 1", ropes.SPACE)
    program.refuse(b"L 64", ropes.SPACE)
    program.refuse(b"L 65", ropes.LEAF_SIZE)
    program.refuse(b"L %d" % GREATEST, ropes.LEAF_SIZE)


def full_and_turned(program: Program) -> None:
    """32,768 elements in 1,023 nodes, the leaves read from the last to the first.

    The 512 leaves are put together two by two, level by level, the later before the
    earlier, and all of them have level 9. Node 512 + i is over 2i + 1 and 2i.
    """
    program.expect(b"D", b"done")
    for _ in range(512):
        leaf(program, 64)
    program.refuse(b"L 1", ropes.SPACE)
    program.refuse(b"L 65", ropes.LEAF_SIZE)
    for step in range(511):
        pair(program, 2 * step + 1, 2 * step)
    refuse_further_leaves(program)
    program.refuse(b"C 1022 1022", ropes.NODE)
    program.refuse(b"C 1022 1023", ropes.NODE)
    program.refuse(b"C 0 1022", ropes.NODE)
    program.expect(b"S", b"done")
    program.say(b"T")
    positions = [each for each in some_positions(32_768) if each < 32_768]
    for position in positions:
        place = 64 * (511 - position // 64) + position % 64
        program.expect(b"P %d" % position, b"%d,10" % place)
        program.expect(b"E 32768 32768 %d" % position, b"%d" % place)
    hold(program, b"P 32768 = none; E 32768 32768 32768 = none")
    hold(program, b"E 32767 32767 0 = refused,7; E 40000 32767 0 = refused,7")
    program.expect(b"R", b"done")
    program.say(b"T")
    for position in positions:
        program.expect(b"P %d" % position, b"%d,10" % position)
    take_in_strip_order(program, some_positions(32_768))


def full_of_leaves(program: Program) -> None:
    """1,023 leaves and nothing else."""
    program.expect(b"D", b"done")
    for number in range(1023):
        leaf(program, number * 7 % 34)
    program.say(b"N")
    program.refuse(b"C 0 1", ropes.SPACE)
    program.refuse(b"C 1022 0", ropes.SPACE)
    program.refuse(b"C 0 0", ropes.NODE)
    program.refuse(b"C 1022 1022", ropes.NODE)
    program.refuse(b"C 0 1023", ropes.NODE)
    program.refuse(b"C 1023 0", ropes.NODE)
    refuse_further_leaves(program)
    program.refuse(b"S", ropes.ROOTS)
    program.say(b"N")


def long_chain(program: Program) -> None:
    """A chain of 511 leaves in 1,021 nodes, and two leaves more."""
    program.expect(b"D", b"done")
    sizes = [number * 5 % 65 for number in range(511)]
    chain(program, leaf(program, sizes[0]), sizes[1:])
    program.refuse(b"S", ropes.BALANCE)
    leaf(program, 5)
    program.refuse(b"S", ropes.ROOTS)
    leaf(program, 0)
    refuse_further_nodes(program, 1020, 1022)
    hold(program, b"D = done; L 4 = 0; L 4 = 1; C 0 1 = 2; S = done")
    show(program)


# Drafts at random


# Two of the parentless nodes, which are put together next.
Two = tuple[int, int]
Manner = Callable[[Chance, Table, list[int]], Two]


def oldest_two(chance: Chance, draft: Table, roots: list[int]) -> Two:
    """The two made first."""
    return roots[0], roots[1]


def oldest_two_turned(chance: Chance, draft: Table, roots: list[int]) -> Two:
    """The two made first, the second before the first."""
    return roots[1], roots[0]


def neighbours(chance: Chance, draft: Table, roots: list[int]) -> Two:
    """Any two made one behind the other."""
    place = chance.below(len(roots) - 1)
    return roots[place], roots[place + 1]


def any_two(chance: Chance, draft: Table, roots: list[int]) -> Two:
    """Any two, in any order."""
    rest = list(roots)
    first = rest.pop(chance.below(len(rest)))
    return first, chance.pick(rest)


def newest_and_another(chance: Chance, draft: Table, roots: list[int]) -> Two:
    """The one made last, and any other before or behind it."""
    return in_any_order(chance, roots[-1], chance.pick(roots[:-1]))


def two_least_deep(chance: Chance, draft: Table, roots: list[int]) -> Two:
    """The two with the least depth, in any order."""
    by_depth = sorted(
        roots, key=lambda number: ropes.depth_of(ropes.node_at(draft, number))
    )
    return in_any_order(chance, by_depth[0], by_depth[1])


def two_smallest(chance: Chance, draft: Table, roots: list[int]) -> Two:
    """The two with the fewest elements, in any order."""
    by_size = sorted(
        roots, key=lambda number: ropes.size_of(ropes.node_at(draft, number))
    )
    return in_any_order(chance, by_size[0], by_size[1])


def in_any_order(chance: Chance, one: int, other: int) -> Two:
    """These two numbers in any order."""
    return (one, other) if chance.below(2) else (other, one)


MANNERS: tuple[Manner, ...] = (
    oldest_two,
    oldest_two_turned,
    neighbours,
    any_two,
    newest_and_another,
    two_least_deep,
    two_smallest,
)


# Sizes that random leaves mostly have: of all kinds, or so thin that the depth counts.
MIXED_SIZES = (0, 0, 0, 1, 1, 2, 63, 64, 64, *range(65))
THIN_SIZES = (0, 0, 0, 1, 1, 2)


def random_leaf(program: Program, chance: Chance, sizes: Sequence[int]) -> None:
    """A leaf call of one of the sizes, or now and then of one that is too great."""
    if chance.below(12) == 0:
        sizes = (65, 65, 66, chance.between(67, 400), *FAR_NUMBERS)
    program.say(b"L %d" % chance.pick(sizes))


def random_pair(program: Program, chance: Chance, manner: Manner) -> None:
    """A concatenation of two parentless nodes, if there are two."""
    roots = ropes.parentless(program.draft)
    if len(roots) > 1:
        program.say(b"C %d %d" % manner(chance, program.draft, roots))


def random_wrong_pair(program: Program, chance: Chance) -> None:
    """A concatenation that is refused: a node twice, a missing one or a child."""
    nodes = len(program.draft)
    good = chance.pick(ropes.parentless(program.draft) or [0])
    missing = (nodes, nodes + 1, nodes + chance.below(1000), GREATEST, 2**32 + good)
    with_parent = sorted(ropes.children(program.draft))
    wrong = chance.pick((good, *missing, *with_parent))
    program.refuse(b"C %d %d" % in_any_order(chance, good, wrong), ropes.NODE)


def random_step(
    program: Program, chance: Chance, manner: Manner, sizes: Sequence[int]
) -> None:
    """A call of any kind on the draft."""
    kind = chance.below(20)
    if kind < 11:
        random_leaf(program, chance, sizes)
    elif kind < 17:
        random_pair(program, chance, manner)
    elif kind < 19:
        random_wrong_pair(program, chance)
    else:
        random_seal(program, chance)


def random_seal(program: Program, chance: Chance) -> None:
    """Seal the draft as it is, and look at the tree."""
    if program.say(b"S") == b"done":
        program.say(b"T")
    ask_places(program, [chance.below(length_of(program) + 1)])
    random_shelf(program, chance)


def random_finish(program: Program, chance: Chance, manner: Manner) -> None:
    """Put together all that is parentless, and seal it."""
    while len(ropes.parentless(program.draft)) > 1:
        random_pair(program, chance, manner)
    program.say(b"S")


def random_positions(chance: Chance, length: int, number: int) -> list[int]:
    """So many positions, most of them below the length, and the first beyond."""
    return [*(chance.below(length + 1) for _ in range(number)), length]


def random_shelf(program: Program, chance: Chance) -> None:
    """An element taken from a shelf whose strip and count are around the length."""
    length = length_of(program)
    number = max(0, length + chance.between(-2, 2))
    places = max(0, number + chance.between(-1, 2))
    position = chance.below(length + 2)
    program.say(b"E %d %d %d" % (min(places, len(STRIP)), number, position))


def random_looks(program: Program, chance: Chance, number: int) -> None:
    """The tree, and places and elements of it, before and after it is started anew."""
    length = length_of(program)
    program.say(b"T")
    ask_places(program, random_positions(chance, length, number))
    take_elements(program, random_positions(chance, length, number))
    random_shelf(program, chance)
    program.expect(b"R", b"done")
    program.say(b"T")
    ask_places(program, random_positions(chance, length, number))
    take_in_strip_order(program, random_positions(chance, length, number))
    random_shelf(program, chance)


def other_strips(program: Program) -> None:
    """Lines, amounts and latests, taken with packed trees and with a turned draft."""
    for elements in (0, 1, 65, 129, 32_768):
        program.expect(b"K %d" % elements, b"done")
        take_of_all_kinds(program, some_positions(elements))
    for left, right in ((0, 64), (64, 1), (0, 0), (2, 7)):
        program.expect(b"D", b"done")
        one = leaf(program, left)
        other = leaf(program, right)
        pair(program, other, one)
        program.expect(b"S", b"done")
        take_of_all_kinds(program, range(left + right + 1))


def take_of_all_kinds(program: Program, positions: Iterable[int]) -> None:
    """Take from each strip, with a shelf that suffices and with one that does not."""
    length = length_of(program)
    for letter in TEXTS_ON_STRIPS:
        for position in positions:
            program.say(b"%s %d %d %d" % (letter, length, length, position))
        program.refuse(b"%s %d %d 0" % (letter, length, length + 1), 7)
        if length > 0:
            program.refuse(b"%s %d %d 0" % (letter, length, length - 1), 7)


def small_random_drafts(program: Program) -> None:
    """Drafts of some dozen calls, each sealed at the end if it can be."""
    chance = Chance(1023)
    for turn in range(42):
        manner = MANNERS[turn % len(MANNERS)]
        sizes = chance.pick((MIXED_SIZES, THIN_SIZES))
        program.expect(b"D", b"done")
        for _ in range(chance.between(3, 30)):
            random_step(program, chance, manner, sizes)
        random_finish(program, chance, manner)
        program.say(b"N")
        random_looks(program, chance, 3)
        if chance.below(3) == 0:
            program.say(b"K %d" % chance.pick((0, 1, 64, 65, chance.below(700))))


def large_random_drafts(program: Program) -> None:
    """Drafts of some hundred calls."""
    chance = Chance(32_768)
    for manner, calls in (
        (any_two, 120),
        (two_smallest, 200),
        (two_least_deep, 300),
    ):
        program.expect(b"D", b"done")
        for _ in range(calls):
            random_step(program, chance, manner, MIXED_SIZES)
        program.say(b"N")
        random_finish(program, chance, manner)
        random_looks(program, chance, 20)


# The scratched set


def scratched_set(program: Program) -> None:
    """Every runner of 8 bits asked for, and those around the range put in and out."""
    hold(program, SCRATCHED)
    program.expect(b"Z", b"done")
    runners = (*range(31), 32, 33, 56, 57, 63, 64, 65, 128, 129, 254, 255)
    for runner in runners:
        inside = 1 <= runner <= 24
        program.expect(b"I %d" % runner, b"done" if inside else b"refused,2")
        program.expect(b"Q %d" % runner, b"yes" if inside else b"no")
    for runner in range(256):
        program.expect(b"Q %d" % runner, b"yes" if 1 <= runner <= 24 else b"no")
    for runner in runners:
        inside = 1 <= runner <= 24
        program.expect(b"O %d" % runner, b"done" if inside else b"refused,2")
        program.expect(b"Q %d" % runner, b"no")
    chance = Chance(24)
    for _ in range(60):
        program.say(b"%c %d" % (chance.pick(b"IIO"), chance.below(27)))
        program.say(b"Q %d" % chance.below(27))
    for runner in range(27):
        program.say(b"Q %d" % runner)


# The stored files


def said() -> Program:
    """The program with all commands said to it."""
    program = Program()
    hold(program, NEW_THINGS)
    hold(program, DOCUMENT_EXAMPLES)
    for dialogue in (LEAF_CALLS, CONCATENATIONS, SEALING, DRAFT_AND_TREE_APART):
        hold(program, dialogue)
    say_far_numbers(program)
    hold(program, BALANCE_BY_HAND)
    balance_of_chains(program)
    balance_of_bushes(program)
    for dialogue in (EMPTY_LEAVES, OUT_OF_ORDER):
        hold(program, dialogue)
    readings_of_turned_drafts(program)
    for dialogue in (SHELVES, PACKED_BY_HAND):
        hold(program, dialogue)
    small_packed_trees(program)
    larger_packed_trees(program)
    full_packed_trees(program)
    full_of_elements(program)
    full_and_turned(program)
    full_of_leaves(program)
    long_chain(program)
    other_strips(program)
    small_random_drafts(program)
    large_random_drafts(program)
    scratched_set(program)
    return program


def stored_files() -> Files:
    """Every stored file with what stands in it."""
    program = said()
    return {
        ROPE_CASES / "stdin": ended(*program.commands),
        ROPE_CASES / "stdout": ended(*program.answers),
    }


if __name__ == "__main__":
    sys.exit(stored.main(sys.argv, stored_files))
