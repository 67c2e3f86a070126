"""Reads the tables of crates/acceptance/data: the runs of `run`, what each is given, and how it must end.

The root file of crates/acceptance says what a table may hold.
"""
import glob
import os
from dataclasses import dataclass, field
from typing import Dict, Iterator, List, Optional, Tuple

import places

# The lines that say more of a row, and have bytes below or none.
_OTHERS = ("kept", "keeps", "keeper", "leaves", "devices", "room")


@dataclass
class Block:
    """A line of a table, and the bytes that the lines below it denote: pieces, with any lines between two of them."""

    word: str
    rest: str
    place: str
    pieces: List[bytes] = field(default_factory=lambda: [b""])

    def whole(self) -> bytes:
        """Returns the bytes, among which there is no gap."""
        (piece,) = self.pieces
        return piece


@dataclass
class Fronts:
    """How many front parts of the case or of the file end with each status, and how each refusal's line begins."""

    of_file: bool
    counts: Dict[int, int]
    begins: bytes


@dataclass
class Row:
    """A call of `run`."""

    place: str
    words: List[str]
    case: Optional[bytes] = None
    file: Optional[bytes] = None
    status: int = -1
    printed: List[bytes] = field(default_factory=list)
    checked: Optional[bytes] = None
    counts: Optional[Tuple[int, int]] = None
    fronts: Optional[Fronts] = None


def words_of(text: str) -> List[str]:
    """Returns the words of a text, which blanks part. What is in double quotes is one word."""
    words: List[str] = []
    for number, part in enumerate(text.split('"')):
        words += [part] if number % 2 else part.split()
    return words


def counts_of(text: bytes) -> Tuple[int, int]:
    """Returns the number of lines of a text, and the FNV-1a digest of its bytes, of 64 bits."""
    digest = 0xCBF29CE484222325
    for byte in text:
        digest = ((digest ^ byte) * 0x100000001B3) & 0xFFFFFFFFFFFFFFFF
    return text.count(b"\n"), digest


def matches(text: bytes, pieces: List[bytes]) -> bool:
    """Whether a text is these pieces, with any lines between two of them."""
    if len(pieces) == 1:
        return text == pieces[0]
    if not text.startswith(pieces[0]):
        return False
    rest = text[len(pieces[0]):]
    for piece in pieces[1:-1]:
        lines = rest.splitlines(True)
        starts = [sum(map(len, lines[:k])) for k in range(len(lines))]
        found = next((start for start in starts if rest.startswith(piece, start)), None)
        if found is None:
            return False
        rest = rest[found + len(piece):]
    before = rest[: len(rest) - len(pieces[-1])]
    return rest.endswith(pieces[-1]) and (not before or before.endswith(b"\n"))


def _bytes_of(line: str, texts: Dict[str, bytes]) -> Optional[bytes]:
    """Returns the bytes that a line denotes, or nothing if it begins a block."""
    word, _, rest = line.partition(" ")
    if word == "|":
        return rest.encode() + b"\n"
    if word == "/":
        return rest.encode()
    if word == "%":
        return bytes.fromhex(rest)
    if word == "*":
        count, _, text = rest.partition(" ")
        return text.encode() * int(count)
    if word == "=":
        return texts[rest]
    if word in ("<", ">"):
        name, number = rest.rsplit(" ", 1)
        lines = texts[name].splitlines(True)
        return b"".join(lines[: int(number) - 1] if word == "<" else lines[int(number):])
    return None


def _blocks(path: str) -> Iterator[Block]:
    """Yields the blocks of a table, in their order."""
    block: Optional[Block] = None
    texts: Dict[str, bytes] = {}
    with open(path, encoding="utf-8", newline="\n") as table:
        lines = table.read().split("\n")
    for number, line in enumerate(lines, 1):
        if not line or line.startswith("#"):
            continue
        if line == "...":
            block.pieces.append(b"")
            continue
        given = _bytes_of(line, texts)
        if given is not None:
            block.pieces[-1] += given
            if block.word == "text":
                texts[block.rest] = block.whole()
            continue
        if block is not None:
            yield block
        word, _, rest = line.partition(" ")
        block = Block(word, rest, f"{os.path.basename(path)}:{number}")
        if word == "text":
            texts[rest] = b""
    if block is not None:
        yield block


def _fronts_of(block: Block) -> Fronts:
    part, *counts = block.rest.split()
    pairs: List[Tuple[str, str]] = [tuple(count.split(":")) for count in counts]
    return Fronts(part == "file", {int(status): int(count) for status, count in pairs}, block.whole())


def _put(row: Row, block: Block) -> None:
    """Puts what a block says into the last row."""
    if block.word == "case":
        row.case = block.whole()
    elif block.word == "file":
        row.file = block.whole()
    elif block.word == "ends":
        row.status, row.printed = int(block.rest), block.pieces
    elif block.word == "checked":
        row.checked = block.whole()
    elif block.word == "counts":
        lines, digest = block.rest.split()
        row.counts = int(lines), int(digest, 16)
    elif block.word == "fronts":
        row.fronts = _fronts_of(block)
    elif block.word not in _OTHERS:
        raise ValueError(f"{block.place}: {block.word} is not a word of a row")


def rows_of(path: str) -> List[Row]:
    """Returns the calls of `run` in a table."""
    rows: List[Row] = []
    row: Optional[Row] = None
    for block in _blocks(path):
        if block.word == "text":
            continue
        if block.word in ("run", "run_study", "file_word"):
            row = Row(block.place, words_of(block.rest))
            if block.word == "run":
                rows.append(row)
        else:
            _put(row, block)
    return rows


def all_rows() -> List[Row]:
    """Returns the calls of `run` in all tables."""
    return [row for path in sorted(glob.glob(os.path.join(places.ROWS, "*.rows"))) for row in rows_of(path)]
