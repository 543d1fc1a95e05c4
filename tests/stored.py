"""Stored files of test cases: what their makers share.

A maker is a script that writes stored files, or with `--check` compares them with
what stands on disk. Here are the seeded choices that makers draw, the check of
answers worked out by hand, and the writing and comparing of files.
"""

from __future__ import annotations

import sys
from collections.abc import Callable, Sequence
from pathlib import Path
from random import Random
from typing import TypeVar

ROOT = Path(__file__).resolve().parent.parent

END = b"\r\n"

Item = TypeVar("Item")

# Every stored file with what stands in it.
Files = dict[Path, bytes]


class Chance:
    """Seeded choices, drawn from the one method whose numbers never change."""

    def __init__(self, seed: int) -> None:
        self._random = Random(seed)

    def below(self, bound: int) -> int:
        """A number from 0 up to, but not including, the bound."""
        return int(self._random.random() * bound)

    def between(self, least: int, most: int) -> int:
        """A number from the least to the most, both included."""
        return least + self.below(most - least + 1)

    def pick(self, items: Sequence[Item]) -> Item:
        """One of the items; of bytes, a number."""
        return items[self.below(len(items))]

    def string(self, alphabet: bytes, length: int) -> bytes:
        """So many bytes of the alphabet."""
        return bytes(self.pick(alphabet) for _ in range(length))


def ended(*records: bytes) -> bytes:
    """These records, each ended by CR LF."""
    return b"".join(each + END for each in records)


def must_agree(what: str, by_hand: bytes, by_reference: bytes) -> None:
    """End the run where an answer worked out by hand is not the reference's."""
    if by_hand != by_reference:
        sys.exit(f"{what}: by hand {by_hand!r}, by the reference {by_reference!r}")


def strange_files(files: Files, folders: Sequence[Path]) -> list[Path]:
    """What stands in these folders and is no stored file."""
    return sorted(
        path
        for folder in folders
        if folder.is_dir()
        for path in folder.iterdir()
        if path not in files
    )


def write_files(files: Files, folders: Sequence[Path]) -> None:
    """Write every stored file, and take away what else is in these folders."""
    for path, content in files.items():
        path.parent.mkdir(parents=True, exist_ok=True)
        path.write_bytes(content)
    for path in strange_files(files, folders):
        path.unlink()


def differences(files: Files, folders: Sequence[Path]) -> list[str]:
    """What is wrong with the stored files, each by its name."""
    wrong = []
    for path, content in files.items():
        if not path.is_file():
            wrong.append(f"{path.relative_to(ROOT)}: missing")
        elif path.read_bytes() != content:
            wrong.append(f"{path.relative_to(ROOT)}: differs")
    for path in strange_files(files, folders):
        wrong.append(f"{path.relative_to(ROOT)}: no case")
    return wrong


def main(
    words: list[str], stored_files: Callable[[], Files], folders: Sequence[Path] = ()
) -> int:
    """Write the stored files, or check them; the words are those of the command.

    In the folders named nothing may stand but stored files.
    """
    script, *arguments = words
    if arguments == []:
        write_files(stored_files(), folders)
        return 0
    if arguments == ["--check"]:
        wrong = differences(stored_files(), folders)
        for each in wrong:
            print(each, file=sys.stderr)
        return 1 if wrong else 0
    print(f"usage: python3 {script} [--check]", file=sys.stderr)
    return 2
