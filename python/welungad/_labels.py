"""Labels in pictures and wide tables: as they are, wrapped at their blanks, or by short tags that a list explains. None is shortened, so
that no two look alike."""
import textwrap
import unicodedata
from typing import Dict, List, Optional, Sequence

LINE, MOST_LINES = 26, 4  # characters and lines of a label beside a circle, where the next circle is near
LONGEST_TAG, LETTERS = 10, "HABCDEFGIJKLMNOPQRSTUVWXYZ"  # a label of so many characters is its own tag
_DIRECTIONS = {"R", "AL", "AN", "LRE", "RLE", "LRO", "RLO", "PDF", "LRI", "RLI", "FSI", "PDI"}


def lines_of(label: str) -> Optional[List[str]]:
    """Returns the lines of a label beside a circle, wrapped at its blanks; nothing if it has no room there."""
    if len(label) <= LINE:
        return [label]
    lines = textwrap.wrap(label, LINE, break_long_words=False, break_on_hyphens=False)
    return lines if lines and len(lines) <= MOST_LINES and max(map(len, lines)) <= LINE else None


def tags_of(labels: Sequence[str]) -> List[str]:
    """Returns a tag for each label: a short label itself, and for another one H and its place, or another letter if a label is such a
    text."""
    long = [n for n, label in enumerate(labels, 1) if len(label) > LONGEST_TAG]
    letter = next((it for it in LETTERS if not {f"{it}{n}" for n in long} & {*labels}), "H#")
    return [f"{letter}{n}" if n in long else label for n, label in enumerate(labels, 1)]


def tags_for(labels: Sequence[str], names: Sequence[str]) -> List[str]:
    """Returns a tag for each label: the labels themselves if all of them are short, and else H and its place for each, or another letter if
    such a text is the label or the name of another hypothesis."""
    if all(len(label) <= LONGEST_TAG for label in labels):
        return [*labels]
    others = {(text, n) for texts in (labels, names) for n, text in enumerate(texts, 1)}
    letter = next((it for it in LETTERS if not any(text[:1] == it and text[1:].isdigit() and text != f"{it}{n}" for text, n in others)), "H#")
    return [f"{letter}{n}" for n in range(1, len(labels) + 1)]


def explained_tags(labels: Sequence[str]) -> Dict[str, str]:
    """Returns the labels of the tags that are not labels themselves, by their tags."""
    return {tag: label for tag, label in zip(tags_of(labels), labels) if tag != label}


def has_direction(label: str) -> bool:
    """Whether a label has a letter of a script that is written from right to left, or a sign that turns the text beside it."""
    return any(unicodedata.bidirectional(it) in _DIRECTIONS for it in label)
