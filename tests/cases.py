"""Makes the stored cases of the programs `report_cases` and `line_cases`.

    python3 tests/cases.py            write all stored files
    python3 tests/cases.py --check    write nothing; name each stored file that
                                      differs and end with status 1 if one does

`report_cases` reads names of files in its folder `data`, each ended by LF. For
each it writes the name, CR LF, and the report on the file's bytes.

`line_cases` reads commands, each ended by CR LF, and answers each with one line.
A command is a letter and then bytes, with no CR LF in them and no CR at the end:

    R and a record       the line's brief form, `=` and the record written of it;
                         else `refused,1`, or `refused,2,` and the place
    A and an amount      its cents; else `refused,2`
    W and five words     terminal, race, pool, runner and cents, with one space
                         between each and the next: the record written of them;
                         else `refused,2`

What the programs must write is taken from reference.py. The cases picked by hand
carry their answer as well, worked out from the documents, and the reference has
to agree with it.
"""

from __future__ import annotations

import sys
from collections.abc import Iterable, Iterator

sys.dont_write_bytecode = True

import reference  # noqa: E402
import stored  # noqa: E402
from reference import Line, LineFault  # noqa: E402
from stored import END, ROOT, Chance, Files, ended, must_agree  # noqa: E402

REPORT_CASES = ROOT / "crates" / "report_cases"
REPORT_DATA = REPORT_CASES / "data"
LINE_CASES = ROOT / "crates" / "line_cases"

GOOD = b"007,03,W,05,     20.00"

# Bytes that mean something in a record, their neighbours, and some far away.
TELLING_BYTES = b"\x00\t\n\r +,-./0129:EPWpw\x7f\x80\xa0\xac\xb0\xff"


# Records and inputs


def record(
    terminal: bytes = b"007",
    race: bytes = b"03",
    pool: bytes = b"W",
    runner: bytes = b"05",
    amount: bytes = b"     20.00",
) -> bytes:
    """A record of these fields, which need not be good."""
    return b",".join((terminal, race, pool, runner, amount))


def with_byte(text: bytes, place: int, byte: int) -> bytes:
    """The bytes with another one at a place."""
    return text[:place] + bytes([byte]) + text[place + 1 :]


def right(text: bytes) -> bytes:
    """The bytes at the right of an amount's ten, with spaces in front."""
    return text.rjust(reference.AMOUNT_BYTES, b" ")


def pool_records(pool: bytes, *amounts: bytes) -> list[bytes]:
    """Records of one pool with these amounts, written at the right."""
    return [record(pool=pool, amount=right(amount)) for amount in amounts]


def wins(*amounts: bytes) -> list[bytes]:
    """Records of the win pool."""
    return pool_records(b"W", *amounts)


def places(*amounts: bytes) -> list[bytes]:
    """Records of the place pool."""
    return pool_records(b"P", *amounts)


def spread_records(count: int, win_amount: bytes, place_amount: bytes) -> list[bytes]:
    """Lines over all terminals, races and runners, the two pools by turns."""
    return [
        record(
            terminal=b"%03d" % (number % 999 + 1),
            race=b"%02d" % (number % 20 + 1),
            pool=b"P" if number % 2 else b"W",
            runner=b"%02d" % (number % 24 + 1),
            amount=right(place_amount if number % 2 else win_amount),
        )
        for number in range(count)
    ]


def random_amount(chance: Chance) -> bytes:
    """A good amount of ten bytes."""
    sign = chance.pick((b"", b"", b"+", b"-", b"-"))
    whole = chance.string(b"0123456789", chance.between(1, 6))
    cents = chance.string(b"0123456789", 2)
    return right(sign + whole + b"." + cents)


def random_record(chance: Chance) -> bytes:
    """A record that is a line."""
    return record(
        terminal=b"%03d" % chance.between(1, 999),
        race=b"%02d" % chance.between(1, 20),
        pool=chance.pick((b"W", b"P")),
        runner=b"%02d" % chance.between(1, 24),
        amount=random_amount(chance),
    )


def damaged(chance: Chance, text: bytes) -> bytes:
    """The bytes with one of them changed, put in or taken out."""
    place = chance.below(len(text))
    byte = bytes([chance.pick(TELLING_BYTES)])
    kind = chance.below(4)
    if kind == 0:
        return text[:place] + byte + text[place:]
    if kind == 1:
        return text[:place] + text[place + 1 :]
    return text[:place] + byte + text[place + 1 :]


# The cases of report_cases: a name, an input, and the report


ReportCase = tuple[str, bytes, bytes]


def totals(win_lines: int, win: str, place_lines: int, place: str) -> bytes:
    """A report with these rows."""
    rows = ("pool,lines,total", f"W,{win_lines},{win}", f"P,{place_lines},{place}")
    return ended(*(row.encode("ascii") for row in rows))


def refused(number: int, refusal: int) -> bytes:
    """A report that refuses a record."""
    return ended(b"refused,%d,%d" % (number, refusal))


def plain_cases() -> Iterator[ReportCase]:
    """Inputs of lines and nothing else."""
    example = ended(
        b"007,03,W,05,     20.00",
        b"007,03,W,02,      0.50",
        b"012,03,P,05,     -0.50",
        b"012,03,W,05,     -0.50",
    )
    yield "empty", b"", totals(0, "0.00", 0, "0.00")
    yield "one-line", GOOD + END, totals(1, "20.00", 0, "0.00")
    yield "one-line-no-end", GOOD, totals(1, "20.00", 0, "0.00")
    yield "two-lines-no-end", GOOD + END + GOOD, totals(2, "40.00", 0, "0.00")
    yield "document-example", example, totals(3, "20.00", 1, "-0.50")
    yield "document-example-no-end", example[:-2], totals(3, "20.00", 1, "-0.50")
    yield (
        "only-win",
        ended(*wins(b"1.00", b"2.50", b"0.07")),
        totals(3, "3.57", 0, "0.00"),
    )
    yield (
        "only-place",
        ended(*places(b"1.00", b"2.50", b"-0.07")),
        totals(0, "0.00", 3, "3.43"),
    )
    yield (
        "same-line-three-times",
        ended(GOOD, GOOD, GOOD),
        totals(3, "60.00", 0, "0.00"),
    )
    yield (
        "ends-of-ranges",
        ended(
            b"001,01,W,01,      0.01",
            b"999,20,P,24,      0.02",
            b"001,20,W,24,      0.04",
            b"999,01,P,01,      0.08",
        ),
        totals(2, "0.05", 2, "0.10"),
    )


def sum_cases() -> Iterator[ReportCase]:
    """Inputs of lines with telling amounts and totals."""
    yield (
        "amount-plus",
        ended(*wins(b"+1.00", b"+000020.00")),
        totals(2, "21.00", 0, "0.00"),
    )
    yield (
        "amount-minus",
        ended(*places(b"-1.00", b"-000020.00")),
        totals(0, "0.00", 2, "-21.00"),
    )
    yield (
        "amount-leading-zeros",
        ended(*wins(b"000000.00", b"000001.00", b"01.00", b"+007.05", b"-000000.05")),
        totals(5, "9.00", 0, "0.00"),
    )
    yield (
        "amount-all-widths",
        ended(
            *wins(b"1.00", b"12.00", b"123.00"),
            *wins(b"1234.00", b"12345.00", b"123456.00"),
            *places(b"-1.01", b"-12.01", b"-123.01"),
            *places(b"-1234.01", b"-12345.01", b"-123456.01"),
        ),
        totals(6, "137171.00", 6, "-137171.06"),
    )
    yield "amount-minus-zero", ended(*wins(b"-0.00")), totals(1, "0.00", 0, "0.00")
    yield "amount-plus-zero", ended(*places(b"+0.00")), totals(0, "0.00", 1, "0.00")
    yield (
        "amount-ends",
        ended(*wins(b"999999.99"), *places(b"-999999.99")),
        totals(1, "999999.99", 1, "-999999.99"),
    )
    yield "sum-zero", ended(*wins(b"20.00", b"-20.00")), totals(2, "0.00", 0, "0.00")
    yield (
        "sum-zero-from-below",
        ended(*places(b"-0.05", b"0.05")),
        totals(0, "0.00", 2, "0.00"),
    )
    yield (
        "sum-plus-five-cents",
        ended(*wins(b"-0.95", b"1.00"), *places(b"0.02", b"0.03")),
        totals(2, "0.05", 2, "0.05"),
    )
    yield (
        "sum-minus-five-cents",
        ended(*wins(b"0.95", b"-1.00"), *places(b"-0.02", b"-0.03")),
        totals(2, "-0.05", 2, "-0.05"),
    )
    yield (
        "sum-minus-one-dollar",
        ended(*wins(b"-0.99", b"-0.01"), *places(b"-0.99", b"-0.02")),
        totals(2, "-1.00", 2, "-1.01"),
    )
    yield (
        "sum-just-seven-digits",
        ended(*wins(b"999999.99", b"0.01"), *places(b"-999999.99", b"-0.01")),
        totals(2, "1000000.00", 2, "-1000000.00"),
    )
    yield (
        "sum-beyond-31-bits",
        ended(*wins(*[b"999999.99"] * 22)),
        totals(22, "21999999.78", 0, "0.00"),
    )
    yield (
        "sum-beyond-32-bits",
        ended(*wins(*[b"999999.99"] * 43), *places(*[b"-999999.99"] * 43)),
        totals(43, "42999999.57", 43, "-42999999.57"),
    )
    yield (
        "sum-greatest-win",
        ended(*wins(*[b"999999.99"] * 1024)),
        totals(1024, "1023999989.76", 0, "0.00"),
    )
    yield (
        "sum-least-place",
        ended(*places(*[b"-999999.99"] * 1024)),
        totals(0, "0.00", 1024, "-1023999989.76"),
    )


def end_cases() -> Iterator[ReportCase]:
    """CR and LF in all kinds of places, and empty records."""
    short = GOOD[:-1]
    yield "only-cr-lf", b"\r\n", refused(1, 1)
    yield "only-cr-lf-twice", b"\r\n\r\n", refused(1, 1)
    yield "only-cr", b"\r", refused(1, 1)
    yield "only-lf", b"\n", refused(1, 1)
    yield "only-lf-cr", b"\n\r", refused(1, 1)
    yield "only-cr-cr-lf", b"\r\r\n", refused(1, 1)
    yield "only-cr-lf-lf", b"\r\n\n", refused(1, 1)
    yield "empty-record-first", END + GOOD + END, refused(1, 1)
    yield "empty-record-middle", ended(GOOD, b"", GOOD), refused(2, 1)
    yield "empty-record-middle-no-end", GOOD + END + END + GOOD, refused(2, 1)
    yield "empty-record-end", GOOD + END + END, refused(2, 1)
    yield "empty-records-end", GOOD + END + END + END, refused(2, 1)
    yield "cr-before-end", GOOD + b"\r" + END, refused(1, 1)
    yield "cr-before-second-end", GOOD + END + GOOD + b"\r" + END, refused(2, 1)
    yield "cr-as-22nd-byte", short + b"\r" + END, refused(1, 2)
    yield "cr-as-22nd-byte-no-end", short + b"\r", refused(1, 2)
    yield "cr-for-end", GOOD + b"\r" + GOOD + END, refused(1, 1)
    yield "cr-for-second-end", GOOD + END + GOOD + b"\r" + GOOD + END, refused(2, 1)
    yield "cr-last-byte", GOOD + b"\r", refused(1, 1)
    yield "cr-last-byte-after-end", GOOD + END + b"\r", refused(2, 1)
    yield "cr-cr-for-end", GOOD + b"\r\r" + GOOD + END, refused(1, 1)
    yield "cr-first-byte", b"\r" + GOOD + END, refused(1, 1)
    yield "cr-in-terminal", ended(record(terminal=b"0\r7")), refused(1, 2)
    yield "cr-as-pool", ended(record(pool=b"\r")), refused(1, 2)
    yield "cr-in-amount", ended(record(amount=b"    \r20.00")), refused(1, 2)
    yield "lf-for-end", GOOD + b"\n" + GOOD + b"\n", refused(1, 1)
    yield "lf-for-end-one-line", GOOD + b"\n", refused(1, 1)
    yield "lf-for-last-end", GOOD + END + GOOD + b"\n", refused(2, 1)
    yield "lf-before-end", GOOD + b"\n" + END, refused(1, 1)
    yield "lf-after-end", GOOD + END + b"\n" + GOOD + END, refused(2, 1)
    yield "lf-as-22nd-byte", short + b"\n" + END, refused(1, 2)
    yield "lf-last-byte-after-end", GOOD + END + b"\n", refused(2, 1)
    yield "lf-first-byte", b"\n" + GOOD + END, refused(1, 1)
    yield "lf-first-of-22-bytes", b"\n" + GOOD[1:] + END, refused(1, 2)
    yield "lf-as-pool", ended(record(pool=b"\n")), refused(1, 2)
    yield "lf-in-amount", ended(record(amount=b"    \n20.00")), refused(1, 2)
    yield "lf-cr-for-end", GOOD + b"\n\r" + GOOD + END, refused(1, 1)
    yield "lf-cr-for-last-end", GOOD + b"\n\r", refused(1, 1)
    yield "lf-cr-in-amount", ended(record(amount=b"   \n\r20.00")), refused(1, 2)
    yield "cr-lf-for-comma", b"007,03,W,05" + END + b"    20.00" + END, refused(1, 1)
    yield "cr-lf-in-last-line", GOOD + END + GOOD[:12] + END + GOOD[12:], refused(2, 1)


FIELD_FAULTS = {
    "terminal-000": record(terminal=b"000"),
    "terminal-letters": record(terminal=b"abc"),
    "terminal-one-letter": record(terminal=b"0O7"),
    "terminal-spaces": record(terminal=b"  7"),
    "terminal-space-behind": record(terminal=b"07 "),
    "terminal-plus": record(terminal=b"+07"),
    "terminal-minus": record(terminal=b"-07"),
    "terminal-point": record(terminal=b"7.0"),
    "terminal-slash": record(terminal=b"0/7"),
    "terminal-colon": record(terminal=b"0:7"),
    "terminal-comma": record(terminal=b",07"),
    "terminal-underscore": record(terminal=b"0_7"),
    "terminal-nul": record(terminal=b"07\x00"),
    "terminal-beyond-ascii": record(terminal=b"0\xb07"),
    "terminal-byte-order-mark": record(terminal=b"\xef\xbb\xbf"),
    "race-00": record(race=b"00"),
    "race-21": record(race=b"21"),
    "race-30": record(race=b"30"),
    "race-99": record(race=b"99"),
    "race-letter": record(race=b"0a"),
    "race-space": record(race=b" 3"),
    "race-space-behind": record(race=b"3 "),
    "race-plus": record(race=b"+3"),
    "race-slash": record(race=b"0/"),
    "race-colon": record(race=b"0:"),
    "race-nul": record(race=b"\x003"),
    "race-beyond-ascii": record(race=b"0\xb3"),
    "pool-lower-w": record(pool=b"w"),
    "pool-lower-p": record(pool=b"p"),
    "pool-next-letter-x": record(pool=b"X"),
    "pool-letter-v": record(pool=b"V"),
    "pool-letter-q": record(pool=b"Q"),
    "pool-letter-o": record(pool=b"O"),
    "pool-digit": record(pool=b"1"),
    "pool-space": record(pool=b" "),
    "pool-comma": record(pool=b","),
    "pool-nul": record(pool=b"\x00"),
    "pool-beyond-ascii": record(pool=b"\xd7"),
    "runner-00": record(runner=b"00"),
    "runner-25": record(runner=b"25"),
    "runner-30": record(runner=b"30"),
    "runner-99": record(runner=b"99"),
    "runner-letter": record(runner=b"5a"),
    "runner-space": record(runner=b" 5"),
    "runner-space-behind": record(runner=b"5 "),
    "runner-minus": record(runner=b"-5"),
    "runner-slash": record(runner=b"/5"),
    "runner-colon": record(runner=b":5"),
    "runner-nul": record(runner=b"5\x00"),
    "runner-beyond-ascii": record(runner=b"\xb05"),
    "amount-no-whole": record(amount=b"       .50"),
    "amount-no-whole-minus": record(amount=b"      -.50"),
    "amount-seven-digits": record(amount=b"1234567.00"),
    "amount-seven-zeros": record(amount=b"0000000.00"),
    "amount-no-cents": record(amount=b"       20."),
    "amount-one-cent-digit": record(amount=b"      20.0"),
    "amount-three-cent-digits": record(amount=b"    20.000"),
    "amount-no-point": record(amount=b"      2000"),
    "amount-ten-digits": record(amount=b"1234567890"),
    "amount-ten-spaces": record(amount=b"          "),
    "amount-comma-for-point": record(amount=b"     20,00"),
    "amount-colon-for-point": record(amount=b"     20:00"),
    "amount-two-points": record(amount=b"   20.0.00"),
    "amount-point-early": record(amount=b"   20.0000"),
    "amount-point-first": record(amount=b".000020.00"),
    "amount-two-signs": record(amount=b" +-   1.00"),
    "amount-two-signs-together": record(amount=b"    +-1.00"),
    "amount-two-minuses": record(amount=b"    --1.00"),
    "amount-sign-apart": record(amount=b"-     1.00"),
    "amount-sign-and-space-behind": record(amount=b"  -  1.00 "),
    "amount-sign-behind": record(amount=b"     1.00-"),
    "amount-sign-inside": record(amount=b"    2-0.00"),
    "amount-sign-before-point": record(amount=b"    20-.00"),
    "amount-sign-in-cents": record(amount=b"     20.-5"),
    "amount-only-sign": record(amount=b"         -"),
    "amount-space-behind": record(amount=b"    20.00 "),
    "amount-space-inside": record(amount=b"    2 0.00"),
    "amount-space-before-point": record(amount=b"    20 .00"),
    "amount-space-behind-point": record(amount=b"     20. 0"),
    "amount-spaces-for-cents": record(amount=b"     20.  "),
    "amount-at-left": record(amount=b"20.00     "),
    "amount-exponent": record(amount=b"    2.0E+1"),
    "amount-letters": record(amount=b"       abc"),
    "amount-letter-for-zero": record(amount=b"     2O.00"),
    "amount-dollar": record(amount=b"    $20.00"),
    "amount-quotes": record(amount=b'   "20.00"'),
    "amount-underscore": record(amount=b"   2_00.00"),
    "amount-slash-digit": record(amount=b"     2/.00"),
    "amount-colon-digit": record(amount=b"     20.0:"),
    "amount-comma-digit": record(amount=b"  1,000.00"),
    "amount-tab": record(amount=b"\t    20.00"),
    "amount-form-feed": record(amount=b"    \x0c20.00"),
    "amount-nul-first": record(amount=b"\x00    20.00"),
    "amount-nul-last": record(amount=b"     20.0\x00"),
    "amount-nuls-for-spaces": record(amount=b"\x00\x00\x00\x00\x0020.00"),
    "amount-no-break-space": record(amount=b"\xa0    20.00"),
    "amount-wide-minus": record(amount=b"  \xe2\x88\x9220.00"),
    "amount-arabic-digit": record(amount=b"     \xd9\xa2.00"),
    "amount-digit-beyond-ascii": record(amount=b"     2\xb0.00"),
    "amount-superscript-digit": record(amount=b"     20.0\xb2"),
}

SHAPE_FAULTS = {
    "bytes-1": b"0",
    "bytes-21-no-last": GOOD[:-1],
    "bytes-21-no-first": GOOD[1:],
    "bytes-21-no-space": record(amount=b"    20.00"),
    "bytes-21-good-but-comma": GOOD.replace(b",W", b"W"),
    "bytes-23-behind": GOOD + b"0",
    "bytes-23-space-behind": GOOD + b" ",
    "bytes-23-comma-behind": GOOD + b",",
    "bytes-23-nul-behind": GOOD + b"\x00",
    "bytes-23-in-front": b"0" + GOOD,
    "bytes-23-space-in-front": b" " + GOOD,
    "bytes-23-in-amount": record(amount=b"      20.00"),
    "bytes-44-two-lines": GOOD + GOOD,
    "bytes-24-quotes": b'"' + GOOD + b'"',
    "bytes-4000": b"0" * 4000,
    "bytes-22-all-nul": b"\x00" * 22,
    "bytes-22-all-digits": b"1" * 22,
    "bytes-22-all-beyond-ascii": b"\xff" * 22,
    "bytes-22-commas-one-late": b"0007,03,W,05,    20.00",
    "bytes-22-commas-one-early": b"07,03,W,05,      20.00",
    "byte-order-mark": b"\xef\xbb\xbf" + GOOD,
    "utf-16": GOOD.decode("ascii").encode("utf-16-le"),
    "short-and-terminal-000": record(terminal=b"000", amount=b"    20.00"),
    "no-last-comma-and-terminal-000": b"000,03,W,05;     20.00",
    "no-last-comma-and-all-fields-bad": b"abc,00,w,00;        no",
}

COMMA_BYTES = {
    "semicolon": b";",
    "space": b" ",
    "point": b".",
    "digit": b"0",
    "plus": b"+",
    "minus": b"-",
    "tab": b"\t",
    "nul": b"\x00",
    "cr": b"\r",
    "lf": b"\n",
    "beyond-ascii": b"\xac",
}


def fault_cases() -> Iterator[ReportCase]:
    """Records with one kind of fault, behind a line."""
    for name, faulty in SHAPE_FAULTS.items():
        yield name, ended(GOOD, faulty, GOOD), refused(2, 1)
    for place in reference.COMMA_PLACES:
        for name, byte in COMMA_BYTES.items():
            faulty = with_byte(GOOD, place, byte[0])
            yield f"comma-{place}-{name}", ended(GOOD, faulty, GOOD), refused(2, 1)
    for name, faulty in FIELD_FAULTS.items():
        yield name, ended(GOOD, faulty, GOOD), refused(2, 2)


def several_fault_cases() -> Iterator[ReportCase]:
    """Inputs with more than one fault, or with a fault at a telling place."""
    shape = GOOD[:-1]
    field = record(race=b"21")
    yield "two-faults-terminal-amount", b"000,03,W,05,        no\r\n", refused(1, 2)
    yield "two-faults-race-runner", b"007,00,W,00,     20.00\r\n", refused(1, 2)
    yield "two-faults-pool-amount", b"007,03,w,05,       .50\r\n", refused(1, 2)
    yield "all-fields-bad", b"abc,00,w,00,        no\r\n", refused(1, 2)
    yield "all-commas", b"," * 22 + END, refused(1, 2)
    yield "shape-then-field", ended(shape, field), refused(1, 1)
    yield "field-then-shape", ended(field, shape), refused(1, 2)
    yield "line-shape-field", ended(GOOD, shape, field), refused(2, 1)
    yield "line-field-shape", ended(GOOD, field, shape), refused(2, 2)
    yield "field-then-empty", ended(field, b""), refused(1, 2)
    yield "shape-fault-last-no-end", ended(GOOD, GOOD) + shape, refused(3, 1)
    yield "field-fault-last-no-end", ended(GOOD, GOOD) + field, refused(3, 2)
    yield "fault-in-record-10", ended(*[GOOD] * 9, field, GOOD), refused(10, 2)
    yield "fault-in-record-100", ended(*[GOOD] * 99, shape), refused(100, 1)
    yield "header-line", ended(b"terminal,race,pool,runner,amount", GOOD), refused(1, 1)
    yield "comment-line-end", ended(GOOD, b"# end"), refused(2, 1)
    yield "nul-last-byte", GOOD + END + b"\x00", refused(2, 1)
    yield "sub-last-byte", GOOD + END + b"\x1a", refused(2, 1)
    yield "space-last-byte", GOOD + END + b" ", refused(2, 1)
    yield "every-byte", bytes(range(256)), refused(1, 1)


def room_cases() -> Iterator[ReportCase]:
    """Inputs of 1,024 records and some more."""
    lines = spread_records(1025, b"1.00", b"-0.25")
    all_taken = totals(512, "512.00", 512, "-128.00")
    full = ended(*lines[:1024])
    field = record(runner=b"25")
    yield "records-1024", full, all_taken
    yield "records-1024-no-end", full[:-2], all_taken
    yield "records-1025", full + lines[1024] + END, refused(1025, 8)
    yield "records-1025-no-end", full + lines[1024], refused(1025, 8)
    yield "records-1024-then-shape-fault", full + GOOD[:-1] + END, refused(1025, 1)
    yield "records-1024-then-field-fault", full + field + END, refused(1025, 2)
    yield "records-1024-then-empty", full + END, refused(1025, 1)
    yield "records-1024-then-cr", full + b"\r", refused(1025, 1)
    yield "records-1025-then-fault", full + ended(lines[1024], field), refused(1025, 8)
    yield (
        "records-1025-fault-in-1024",
        ended(*lines[:1023], field, lines[1024]),
        refused(1024, 2),
    )
    yield "records-1025-fault-in-1", ended(GOOD[1:], *lines[:1024]), refused(1, 1)


def picked_report_cases() -> Iterator[ReportCase]:
    """All cases picked by hand, with the reports worked out by hand."""
    yield from plain_cases()
    yield from sum_cases()
    yield from end_cases()
    yield from fault_cases()
    yield from several_fault_cases()
    yield from room_cases()


def random_report_inputs() -> Iterator[tuple[str, bytes]]:
    """Lines at random, in about half of the inputs with some bytes damaged."""
    chance = Chance(6093)
    for number in range(40):
        data = ended(*(random_record(chance) for _ in range(chance.between(3, 36))))
        for _ in range(chance.pick((0, 0, 0, 1, 1, 2, 3))):
            data = damaged(chance, data)
        if chance.below(4) == 0 and data.endswith(END):
            data = data[: -len(END)]
        yield f"random-{number:02d}", data


def report_inputs() -> dict[str, bytes]:
    """The inputs by name, in the order in which they are reported on."""
    inputs: dict[str, bytes] = {}
    for name, data, answer in picked_report_cases():
        must_agree(f"report case {name}", answer, reference.report(data))
        must_be_new(name, inputs)
        inputs[name] = data
    for name, data in random_report_inputs():
        must_be_new(name, inputs)
        inputs[name] = data
    return inputs


# The cases of line_cases


# Commands with answers worked out by hand, those of the documents first.
PICKED_COMMANDS = {
    b"R007,03,W,05,     20.00": b"7,3,W,5,20.00=007,03,W,05,     20.00",
    b"A     20.00": b"2000",
    b"A     -0.50": b"-50",
    b"A     -0.00": b"0",
    b"A   +007.05": b"705",
    b"A-999999.99": b"-99999999",
    b"A      -.50": b"refused,2",
    b"A1234567.00": b"refused,2",
    b"A  -  1.00 ": b"refused,2",
    b"A +-   1.00": b"refused,2",
    b"R000,03,W,05,     20.00": b"refused,2,0",
    b"R007,00,W,05,     20.00": b"refused,2,4",
    b"R007,21,W,05,     20.00": b"refused,2,4",
    b"R007,03,w,05,     20.00": b"refused,2,7",
    b"R007,03,W,00,     20.00": b"refused,2,9",
    b"R007,03,W,25,     20.00": b"refused,2,9",
    b"R007,03,W,05,      -.50": b"refused,2,12",
    b"R": b"refused,1",
    b"R007,03,W,05,     20.0": b"refused,1",
    b"R007,03,W,05,     20.000": b"refused,1",
    b"R000,21,w,25;         x": b"refused,1",
    b"R000,21,w,25,         x": b"refused,2,0",
    b"R001,21,w,25,         x": b"refused,2,4",
    b"R001,01,w,25,         x": b"refused,2,7",
    b"R001,01,P,25,         x": b"refused,2,9",
    b"R001,01,P,01,         x": b"refused,2,12",
    b"R001,01,P,01,     -0.50": b"1,1,P,1,-0.50=001,01,P,01,     -0.50",
    b"R999,20,W,24,-999999.99": b"999,20,W,24,-999999.99=999,20,W,24,-999999.99",
    b"R999,20,P,24,+999999.99": b"999,20,P,24,999999.99=999,20,P,24, 999999.99",
    b"R100,10,W,10, 000100.10": b"100,10,W,10,100.10=100,10,W,10,    100.10",
    b"R010,20,P,20,   -000.00": b"10,20,P,20,0.00=010,20,P,20,      0.00",
    b"R010,20,P,20,   -000.01": b"10,20,P,20,-0.01=010,20,P,20,     -0.01",
    b"A": b"refused,2",
    b"A 999999.99": b"99999999",
    b"A+999999.99": b"99999999",
    b"A-000000.01": b"-1",
    b"A 000000.00": b"0",
    b"A0000000.00": b"refused,2",
    b"A    20.00": b"refused,2",
    b"A      20.00": b"refused,2",
    b"W7 3 W 5 2000": b"007,03,W,05,     20.00",
    b"W1 1 P 1 -50": b"001,01,P,01,     -0.50",
    b"W1 1 P 1 -5": b"001,01,P,01,     -0.05",
    b"W1 1 P 1 0": b"001,01,P,01,      0.00",
    b"W999 20 W 24 99999999": b"999,20,W,24, 999999.99",
    b"W999 20 W 24 -99999999": b"999,20,W,24,-999999.99",
    b"W0 3 W 5 2000": b"refused,2",
    b"W1000 3 W 5 2000": b"refused,2",
    b"W7 0 W 5 2000": b"refused,2",
    b"W7 21 W 5 2000": b"refused,2",
    b"W7 3 W 0 2000": b"refused,2",
    b"W7 3 W 25 2000": b"refused,2",
    b"W7 3 W 5 100000000": b"refused,2",
    b"W7 3 W 5 -100000000": b"refused,2",
    b"W7 3 W 5 9223372036854775807": b"refused,2",
    b"W7 3 W 5 -9223372036854775808": b"refused,2",
}


def record_commands() -> Iterator[bytes]:
    """Commands that read a record."""
    for text in records_to_read():
        yield b"R" + text


def records_to_read() -> Iterator[bytes]:
    """Good records, records near to good ones, and random ones."""
    yield from records_over_ranges()
    yield from records_with_one_byte_changed()
    yield from records_of_other_lengths()
    yield from records_with_two_faults()
    yield from random_records()


def records_over_ranges() -> Iterator[bytes]:
    """Every race and runner of two digits, and terminals far and wide."""
    for number in range(100):
        yield record(race=b"%02d" % number)
    for number in range(100):
        yield record(pool=b"P", runner=b"%02d" % number)
    for number in sorted({*range(0, 1000, 13), *range(13), *range(98, 103), 998, 999}):
        yield record(terminal=b"%03d" % number)


def records_with_one_byte_changed() -> Iterator[bytes]:
    """Every byte in every place of a good record."""
    for place in range(len(GOOD)):
        for byte in range(256):
            yield with_byte(GOOD, place, byte)


def records_of_other_lengths() -> Iterator[bytes]:
    """Beginnings and ends of a record, and records with something more."""
    for length in range(len(GOOD)):
        yield GOOD[:length]
        yield GOOD[length + 1 :]
    for place in range(len(GOOD)):
        yield GOOD[:place] + GOOD[place + 1 :]
        yield GOOD[:place] + GOOD[place : place + 1] + GOOD[place:]
    for behind in (b" ", b"0", b",", b"\x00", b"\n", b"\r0", b"\n\r0", b",0", b"\xff"):
        yield GOOD + behind
        yield behind + GOOD
    yield GOOD + GOOD
    yield GOOD + b"\n" + GOOD
    yield GOOD + b"\r" + GOOD
    yield b"0" * 300
    yield b"," * 22
    yield b" " * 22
    yield b"\x00" * 22
    yield b"\xff" * 22


def records_with_two_faults() -> Iterator[bytes]:
    """Every choice of good and bad fields, with all commas and without one."""
    good = (b"007", b"03", b"W", b"05", b"     20.00")
    bad = (b"0x7", b"21", b"w", b"00", b"     20.0x")
    for choice in range(2 ** len(good)):
        fields = (
            bad[field] if choice >> field & 1 else good[field]
            for field in range(len(good))
        )
        text = b",".join(fields)
        yield text
        yield with_byte(text, reference.COMMA_PLACES[choice % 4], ord(";"))


def random_records() -> Iterator[bytes]:
    """Lines at random, and such with one or two bytes damaged."""
    chance = Chance(4180)
    for _ in range(200):
        yield random_record(chance)
    for _ in range(250):
        text = damaged(chance, random_record(chance))
        yield damaged(chance, text) if chance.below(2) else text


def amount_commands() -> Iterator[bytes]:
    """Commands that read an amount."""
    for text in amounts_to_read():
        yield b"A" + text


def amounts_to_read() -> Iterator[bytes]:
    """Good amounts, amounts near to good ones, and random bytes."""
    yield from good_amounts()
    yield from amount_structures()
    yield from amount_fronts()
    yield from amounts_with_one_byte_changed()
    yield from random_amounts()


def good_amounts() -> Iterator[bytes]:
    """Every sign and number of digits, and every number of cents."""
    for sign in (b"", b"+", b"-"):
        for digits in (b"000000", b"999999", b"123456", b"000102", b"100000"):
            for count in range(1, 7):
                yield right(sign + digits[:count] + b".05")
                yield right(sign + digits[-count:] + b".90")
    for cents in range(100):
        yield right(b"0.%02d" % cents)
        yield right(b"-0.%02d" % cents)


def amount_structures() -> Iterator[bytes]:
    """Every make of spaces, sign, digits, point and cents up to 12 bytes, and more."""
    for spaces in range(10):
        for sign in (b"", b"+", b"-"):
            for digits in range(9):
                front = b" " * spaces + sign + b"12345678"[:digits]
                for behind in (b"", b".", b".3", b".30", b".305"):
                    if len(front + behind) <= 12:
                        yield front + behind
    # Two signs, and a sign or a space in each gap between the parts.
    for sign in (b"++", b"+-", b"-+", b"--", b"- ", b"+ ", b"- -", b"+ +"):
        for digits in range(1, 7):
            yield right(sign + b"123456"[:digits] + b".05")
    for gap in (b" ", b"+", b"-", b".", b","):
        for parts in ((b"1", b".05"), (b"-1", b".05"), (b"1.", b"05"), (b"1.0", b"5")):
            yield right(gap.join(parts))
        yield right(b"1.05" + gap)
        yield right(b"-1.05" + gap)


def amount_fronts() -> Iterator[bytes]:
    """Every order of spaces, signs and digits in the five bytes at the point."""
    for number in range(3**5):
        front = bytes(b" -5"[number // 3**place % 3] for place in range(5))
        yield b"  " + front + b".50"


def amounts_with_one_byte_changed() -> Iterator[bytes]:
    """Telling bytes in every place of some amounts, and those with a byte less."""
    for text in (b"-123456.78", b"   +007.05"):
        for place in range(len(text)):
            for byte in TELLING_BYTES:
                yield with_byte(text, place, byte)
            yield text[:place] + text[place + 1 :]


def random_amounts() -> Iterator[bytes]:
    """Random bytes, of the amounts' own and of others, of 0 to 12 bytes."""
    chance = Chance(93)
    for _ in range(250):
        yield chance.string(b" +-.0189", 10)
    for _ in range(250):
        yield chance.string(b" +-0189", 7) + b"." + chance.string(b"0189", 2)
    for _ in range(150):
        yield right(chance.string(b"+-0189", chance.between(1, 7)) + b".10")
    for _ in range(100):
        yield chance.string(b" +-.0189" + TELLING_BYTES, 10)
    for _ in range(150):
        yield chance.string(b" +-.0189", chance.between(0, 12))
    for _ in range(150):
        yield damaged(chance, random_amount(chance))


def writer_commands() -> Iterator[bytes]:
    """Commands that write a line."""
    for terminal in terminals_to_write():
        yield writer_command(terminal=terminal)
    for race in range(256):
        yield writer_command(race=race)
    for runner in range(256):
        yield writer_command(runner=runner)
    for cents in cents_to_write():
        yield writer_command(cents=cents)
    yield from writer_commands_with_two_faults()
    yield from random_writer_commands()


def writer_command(
    terminal: int = 7,
    race: int = 3,
    pool: bytes = b"W",
    runner: int = 5,
    cents: int = 2000,
) -> bytes:
    """The command that writes this line."""
    return b"W%d %d %s %d %d" % (terminal, race, pool, runner, cents)


def terminals_to_write() -> list[int]:
    """The ends of the range, the ends of 16 bits, and a spread between."""
    numbers = {*range(12), *range(97, 103), *range(990, 1012), *range(0, 65536, 1009)}
    for power in range(17):
        numbers |= {2**power - 1, 2**power, 2**power + 1}
    numbers |= set(range(0, 1000, 37))
    return sorted(number for number in numbers if number <= 65535)


def cents_to_write() -> Iterator[int]:
    """Every ending of cents, every number of digits, and the ends of the range."""
    for ending in range(100):
        for whole in (0, 7, 123456):
            yield 100 * whole + ending
            yield -(100 * whole + ending)
    for power in range(19):
        for step in (-1, 0, 1):
            yield 10**power + step
            yield -(10**power + step)
    for bits in (8, 16, 24, 26, 27, 31, 32, 33, 63):
        for step in (-1, 0, 1):
            value = 2**bits + step
            if value < 2**63:
                yield value
            if -value >= -(2**63):
                yield -value
    # Values that would be in range if only their low 32 bits were looked at.
    for value in (2000, 99_999_999):
        for sign in (1, -1):
            yield sign * (2**32 + value)
            yield sign * (2**62 + value)


def writer_commands_with_two_faults() -> Iterator[bytes]:
    """Every choice of good and bad values."""
    good = (7, 3, 5, 2000)
    for bad in ((0, 0, 0, -100_000_000), (1000, 21, 25, 100_000_000)):
        for choice in range(2 ** len(good)):
            terminal, race, runner, cents = (
                bad[field] if choice >> field & 1 else good[field]
                for field in range(len(good))
            )
            yield writer_command(terminal, race, b"P", runner, cents)


def random_writer_commands() -> Iterator[bytes]:
    """Values at random, in their ranges and a little beyond."""
    chance = Chance(64)
    for _ in range(200):
        digits = chance.between(1, 8)
        yield writer_command(
            terminal=chance.between(1, 999),
            race=chance.between(1, 20),
            pool=chance.pick((b"W", b"P")),
            runner=chance.between(1, 24),
            cents=chance.pick((1, -1)) * chance.below(10**digits),
        )
    for _ in range(100):
        yield writer_command(
            terminal=chance.between(0, 1100),
            race=chance.between(0, 22),
            pool=chance.pick((b"W", b"P")),
            runner=chance.between(0, 27),
            cents=chance.between(-110_000_000, 110_000_000),
        )


def can_be_command(command: bytes) -> bool:
    """Whether a command, with CR LF behind it, ends there and nowhere else."""
    return END not in command and not command.endswith(b"\r")


def line_commands() -> list[bytes]:
    """All commands, each once."""
    for command, answer in PICKED_COMMANDS.items():
        must_agree(f"command {command!r}", answer, answer_to(command))
    commands = [
        *PICKED_COMMANDS,
        *record_commands(),
        *amount_commands(),
        *writer_commands(),
    ]
    return list(dict.fromkeys(filter(can_be_command, commands)))


def answer_to(command: bytes) -> bytes:
    """What line_cases must write for a command, without the line end."""
    letter, rest = command[:1], command[1:]
    if letter == b"R":
        return answer_to_record(rest)
    if letter == b"A":
        return answer_to_amount(rest)
    return answer_to_words(rest)


def answer_to_record(text: bytes) -> bytes:
    """The answer to the command R."""
    read = reference.read_record(text)
    if isinstance(read, LineFault):
        place = b"" if read.place is None else b",%d" % read.place
        return b"refused,%d%s" % (read.number, place)
    return reference.brief_line(read) + b"=" + written(read)


def answer_to_amount(text: bytes) -> bytes:
    """The answer to the command A."""
    cents = reference.read_amount(text)
    return b"refused,%d" % reference.FIELD if cents is None else b"%d" % cents


def answer_to_words(text: bytes) -> bytes:
    """The answer to the command W."""
    terminal, race, pool, runner, cents = text.split(b" ")
    return written(Line(int(terminal), int(race), pool, int(runner), int(cents)))


def written(line: Line) -> bytes:
    """The record of a line, or the refusal."""
    text = reference.write_line(line)
    return b"refused,%d" % reference.FIELD if text is None else text


# A check of the cases themselves


def must_be_new(name: str, names: Iterable[str]) -> None:
    """End the run where two cases have one name."""
    if name in names:
        sys.exit(f"report case {name}: two cases have this name")


# The stored files


def stored_files() -> Files:
    """Every stored file with what stands in it."""
    inputs = report_inputs()
    commands = line_commands()
    files = {
        REPORT_CASES / "stdin": b"".join(name.encode() + b"\n" for name in inputs),
        REPORT_CASES / "stdout": b"".join(
            name.encode() + END + reference.report(data)
            for name, data in inputs.items()
        ),
        LINE_CASES / "stdin": ended(*commands),
        LINE_CASES / "stdout": ended(*map(answer_to, commands)),
    }
    for name, data in inputs.items():
        files[REPORT_DATA / name] = data
    return files


if __name__ == "__main__":
    sys.exit(stored.main(sys.argv, stored_files, (REPORT_DATA,)))
