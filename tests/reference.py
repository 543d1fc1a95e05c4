"""Bet lines and the report on them, as the documents have it.

This module follows docs/LINES.md, docs/REFUSALS.md and docs/REPORT.md word by
word, over bytes, and shares nothing with the programs that it is compared with.
It is written to be read beside the documents, not to be fast.

As a command it reads an input of bet lines from standard input and writes the
report to standard output:

    python3 tests/reference.py < input
"""

from __future__ import annotations

import sys
from dataclasses import dataclass
from typing import Optional, Union

# The numbers of docs/REFUSALS.md.
SHAPE = 1
FIELD = 2
SPACE = 8

RECORD_END = b"\r\n"
RECORD_BYTES = 22
COMMA = ord(",")
COMMA_PLACES = (3, 6, 8, 11)

# The first byte of each field, and the place that a fault of the field carries.
TERMINAL_PLACE = 0
RACE_PLACE = 4
POOL_PLACE = 7
RUNNER_PLACE = 9
AMOUNT_PLACE = 12

# The least and the greatest value of each field of digits.
TERMINALS = (1, 999)
RACES = (1, 20)
RUNNERS = (1, 24)

WIN_POOL = b"W"
PLACE_POOL = b"P"
POOLS = (WIN_POOL, PLACE_POOL)

AMOUNT_BYTES = 10
MOST_WHOLE_DIGITS = 6
MOST_CENTS = 99_999_999

# The program's strip has places for so many lines.
REPORT_ROOM = 1024


@dataclass(frozen=True)
class Line:
    """How much a terminal took on one runner; any values, as in memory."""

    terminal: int
    race: int
    pool: bytes
    runner: int
    cents: int


@dataclass(frozen=True)
class LineFault:
    """Why a record is no line: the refusal, and the place of a field's fault."""

    number: int
    place: Optional[int] = None


@dataclass(frozen=True)
class IntakeFault:
    """Why an input is refused: its first refused record, counted from 1."""

    record: int
    number: int
    place: Optional[int] = None


def cut_records(data: bytes) -> list[bytes]:
    """The records of an input."""
    records = data.split(RECORD_END)
    # The last piece is the rest behind the last CR LF, or the whole input.
    if records[-1] == b"":
        records.pop()
    return records


def all_digits(field: bytes) -> bool:
    """Whether each byte is one of `0` to `9`."""
    return all(ord("0") <= byte <= ord("9") for byte in field)


def digits_value(digits: bytes) -> int:
    """The number that digits show."""
    value = 0
    for digit in digits:
        value = 10 * value + (digit - ord("0"))
    return value


def read_digits(field: bytes, bounds: tuple[int, int]) -> Optional[int]:
    """The number in a field of digits, or None outside its form or range."""
    least, most = bounds
    if not all_digits(field):
        return None
    value = digits_value(field)
    return value if least <= value <= most else None


def read_amount(field: bytes) -> Optional[int]:
    """The cents of an amount, or None where the bytes are no amount."""
    if len(field) != AMOUNT_BYTES:
        return None
    rest = field.lstrip(b" ")
    sign = -1 if rest[:1] == b"-" else 1
    if rest[:1] in (b"+", b"-"):
        rest = rest[1:]
    whole, point, cents = rest[:-3], rest[-3:-2], rest[-2:]
    if not (1 <= len(whole) <= MOST_WHOLE_DIGITS and all_digits(whole)):
        return None
    if point != b".":
        return None
    if not (len(cents) == 2 and all_digits(cents)):
        return None
    return sign * (100 * digits_value(whole) + digits_value(cents))


def has_shape(record: bytes) -> bool:
    """Whether a record has 22 bytes and its four commas."""
    return len(record) == RECORD_BYTES and all(
        record[place] == COMMA for place in COMMA_PLACES
    )


def read_record(record: bytes) -> Union[Line, LineFault]:
    """The line of a record, or its first fault."""
    if not has_shape(record):
        return LineFault(SHAPE)
    terminal = read_digits(record[0:3], TERMINALS)
    if terminal is None:
        return LineFault(FIELD, TERMINAL_PLACE)
    race = read_digits(record[4:6], RACES)
    if race is None:
        return LineFault(FIELD, RACE_PLACE)
    pool = record[7:8]
    if pool not in POOLS:
        return LineFault(FIELD, POOL_PLACE)
    runner = read_digits(record[9:11], RUNNERS)
    if runner is None:
        return LineFault(FIELD, RUNNER_PLACE)
    cents = read_amount(record[12:22])
    if cents is None:
        return LineFault(FIELD, AMOUNT_PLACE)
    return Line(terminal, race, pool, runner, cents)


def write_dollars(cents: int) -> bytes:
    """Cents as dollars: a minus below 0, the whole, a point, two digits."""
    sign = "-" if cents < 0 else ""
    whole, rest = divmod(abs(cents), 100)
    return f"{sign}{whole}.{rest:02d}".encode("ascii")


def can_be_shown(line: Line) -> bool:
    """Whether each value of a line is one that its field can show."""
    return (
        TERMINALS[0] <= line.terminal <= TERMINALS[1]
        and RACES[0] <= line.race <= RACES[1]
        and RUNNERS[0] <= line.runner <= RUNNERS[1]
        and -MOST_CENTS <= line.cents <= MOST_CENTS
    )


def write_line(line: Line) -> Optional[bytes]:
    """The record of a line, or None where the writer refuses it (refusal 2)."""
    if not can_be_shown(line):
        return None
    fields = (
        b"%03d" % line.terminal,
        b"%02d" % line.race,
        line.pool,
        b"%02d" % line.runner,
        write_dollars(line.cents).rjust(AMOUNT_BYTES, b" "),
    )
    return b",".join(fields)


def brief_line(line: Line) -> bytes:
    """A line as shown to people, with nothing in front of the numbers."""
    fields = (
        b"%d" % line.terminal,
        b"%d" % line.race,
        line.pool,
        b"%d" % line.runner,
        write_dollars(line.cents),
    )
    return b",".join(fields)


def take_in(data: bytes, room: int) -> Union[list[Line], IntakeFault]:
    """The lines of an input for a strip with `room` places, or the refusal."""
    lines: list[Line] = []
    for number, record in enumerate(cut_records(data), start=1):
        read = read_record(record)
        if isinstance(read, LineFault):
            return IntakeFault(number, read.number, read.place)
        if len(lines) == room:
            return IntakeFault(number, SPACE)
        lines.append(read)
    return lines


def signed_64(value: int) -> int:
    """The value modulo 2^64 in signed form."""
    return (value + 2**63) % 2**64 - 2**63


def pool_row(pool: bytes, lines: list[Line]) -> bytes:
    """The report's row for one pool, without its line end."""
    amounts = [line.cents for line in lines if line.pool == pool]
    total = signed_64(sum(amounts))
    return b"%s,%d,%s" % (pool, len(amounts), write_dollars(total))


def report(data: bytes) -> bytes:
    """The report on an input."""
    taken = take_in(data, REPORT_ROOM)
    if isinstance(taken, IntakeFault):
        rows = [b"refused,%d,%d" % (taken.record, taken.number)]
    else:
        rows = [b"pool,lines,total"] + [pool_row(pool, taken) for pool in POOLS]
    return b"".join(row + b"\r\n" for row in rows)


def main() -> int:
    """Write the report on standard input to standard output."""
    try:
        with open(0, "rb", closefd=False) as source:
            data = source.read()
        with open(1, "wb", closefd=False) as target:
            target.write(report(data))
    except (OSError, MemoryError) as error:
        print(f"reference: {error}", file=sys.stderr)
        return 1
    return 0


if __name__ == "__main__":
    sys.exit(main())
