"""Refusals: the cause and the cure of each line, from the tables of REFUSALS.md, and the exceptions.

The page has one table a section. The cell `Line` of a row has the lines that the row is about, in backquotes; a word in capitals
denotes any text, and `..` the end of a line. A sentence above a table may say how all of its lines begin, and `for` in a cell which
commands it is about. The other cells are the cause and the cure, or the condition of evidence that is broken.
"""
import functools
import re
from typing import Iterator, List, NamedTuple, Optional, Tuple

from ._library import beside

_CAPITALS = re.compile(r"\b[A-Z]+\b|\\[.]\\[.]")
_OTHER_PLACES = re.compile(r"^(malformed|limit): (?:row \d+ column \d+|commands line \d+|/[^ ]*): ")


class Row(NamedTuple):
    """A row of the page: the patterns of its lines, the commands that it is about (all if it names none), and its cells."""

    patterns: List["re.Pattern[str]"]
    commands: List[str]
    cause: str
    cure: str


def rows_of(page: str) -> Iterator[Row]:
    """Yields the rows of the tables of a page about lines."""
    begins, head = [""], [""]
    for line in page.split("\n"):
        if line.startswith("## "):
            begins = [""]
        cells = [cell.strip() for cell in line.strip("|").split("|")]
        if "begin with `" in line or "begins with `" in line:
            begins = re.findall("`([^`]*)`", line.partition("with ")[2].partition(",")[0].partition(". ")[0])
        if not line.startswith("|"):
            head = [""]
        elif head == [""]:
            head = cells
        elif "`" in cells[0] and head[0] in ("Line", "Rest of the line"):
            lines, _, commands = cells[0].partition(" for ")
            texts = [begin + text for begin in begins for text in re.findall("`([^`]*)`", lines)]
            patterns = [re.compile(_CAPITALS.sub(".*", re.escape(text))) for text in texts]
            yield Row(patterns, re.findall("`([a-z]+)[^`]*`", commands), cells[1], cells[2] if len(cells) > 2 else "")


@functools.lru_cache(maxsize=None)
def _rows() -> Tuple[Row, ...]:
    """Returns the rows of the page that came with this package; none if it is missing."""
    path = beside("docs", "REFUSALS.md")
    if path is None:
        return ()
    with open(path, encoding="utf-8") as file:
        return tuple(rows_of(file.read()))


def found_rows(line: str, command: str = "", rows: Optional[Tuple[Row, ...]] = None) -> List[Row]:
    """Returns the rows about a line that a command printed: of one command the first, and else each that may be meant."""
    # the kinds of a text occur in sheets, JSON and commands too, at other places
    for text in (line, _OTHER_PLACES.sub(r"\1: line 1: ", line)):
        found = [row for row in (_rows() if rows is None else rows) if any(pattern.fullmatch(text) for pattern in row.patterns)]
        own = [row for row in found if not row.commands or command in row.commands]
        if found:
            return own[:1] if command else found if found[0].commands else found[:1]
    return []


def explained(line: str, command: str = "") -> Optional[Tuple[str, str]]:
    """Returns the cause and the cure of a line that a command printed, in the words of the page; nothing if no row is about it. The cure
    may be empty."""
    row = next(iter(found_rows(line, command)), None)
    return (row.cause, row.cure) if row else None


def plain_words(text: str) -> str:
    """Returns a cell of the page without its links and backquotes."""
    return re.sub(r"\[([^\]]*)\]\([^)]*\)", r"\1", text).replace("`", "")


def explain(line: str, command: str = "") -> str:
    """Returns what a refusal's line means and what to do, in a sentence or two; the empty text for a line that is not a refusal.

    `command` is the one that printed the line. Without it, a line that has another meaning for each command is explained for each."""
    rows = found_rows(line, command)
    texts = [" ".join(filter(None, (row.cause, row.cure))) for row in rows]
    if len(rows) > 1:
        texts = [f"{', '.join(row.commands)}: {text}" for row, text in zip(rows, texts)]
    return plain_words(" ".join(texts))


class Refused(Exception):
    """The proved call refused what it was given.

    `status` is that of the call: USAGE, MALFORMED, LIMIT, TOO_WIDE or NO_MEMORY; of a study also 6 (a file cannot be read) or 9
    (the file of looks failed). `line` is the program's one line, without its line feed. `explanation` says what the line means, and
    `command` is the one that was refused. `where` names the argument of a method of `Graph` that the line is about, such as "the
    p-value of 'H2'"; it is empty else.
    """

    def __init__(self, status: int, line: str, where: str = "", command: str = ""):
        super().__init__(status, line, where, command)
        self.status = status
        self.line = line
        self.where = where
        self.command = command
        self.explanation = explain(line, command) if line else "A word of the call is not UTF-8."

    def __str__(self) -> str:
        if not self.line:
            return self.explanation
        return f"{self.where}: {self.explanation} ({self.line})" if self.where else f"{self.line}. {self.explanation}"


class BadAnswer(RuntimeError):
    """What answered is not Welungad, or did not end by itself: its text is not the whole answer to the call that was made."""
