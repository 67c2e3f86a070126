#!/usr/bin/env python3
"""Checks that the definitions that pages quote are in the files named above them, word for word.

usage: bench/quotes.py

The pages are READING and DEFINITIONS of docs/. Each line of a block between two lines ``` must be a line of one of the files
that the paragraphs above the block, up to the block before, link to. Ends with status 1 if one isn't, and prints how many lines are
quoted.
"""
import os
import re
import sys

TOP = os.path.dirname(os.path.dirname(os.path.abspath(__file__)))
PAGES = ["READING.md", "DEFINITIONS.md"]


def content(path):
    """Returns the lines of a file of the repository."""
    with open(os.path.join(TOP, path), encoding="utf-8") as file:
        return file.read().split("\n")


def quotes(page):
    """Yields each quoted line of a page, with the sources that the page names for it."""
    sources, quoting = [], False
    for line in content(page):
        if line == "```":
            quoting = not quoting
            if not quoting:
                sources = []
        elif quoting and line.strip():
            yield line, sources
        elif not quoting:
            sources += re.findall(r"\]\(\.\./(crates/[^)]*\.antt)\)", line)


def main():
    found, missing = 0, 0
    for page in PAGES:
        for line, sources in quotes(os.path.join("docs", page)):
            if any(line in content(it) for it in sources):
                found += 1
            else:
                missing += 1
                print(f"docs/{page}: not in the file: {line}")
    print(f"{found + missing} lines quoted, {missing} not found")
    return 1 if missing else 0


if __name__ == "__main__":
    sys.exit(main())
