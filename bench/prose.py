#!/usr/bin/env python3
"""Counts what makes pages and comments hard to read, file by file.

    bench/prose.py [--all] [--write] [FILE ..]

Reads README.md, CHANGES.md, the pages of docs/, examples/, bench/, c/, python/, r/ and tools/, and the comments of sources and
definitions. For each part of the repository (a page, a crate) it counts
  words    words that have a plainer one, such as 'want of memory' and 'so many',
  long     sentences of more than 30 words,
  cells    table cells of more than 160 characters,
  runs     four sentences of nine words or fewer in a row, in one paragraph,
  wide     lines of .rt over 140 bytes, but for string literals and for attributes, which `rt fmt` keeps on one line.
Prints each part whose count is above its bound in bench/prose.bounds, and ends with status 1 where there is one. With --all it
prints every count and the places of words; with --write it lowers the bounds to the counts of today, never raises one.
"""
import glob
import os
import re
import sys

TOP = os.path.normpath(os.path.join(os.path.dirname(os.path.abspath(__file__)), ".."))
BOUNDS = os.path.join(TOP, "bench", "prose.bounds")
KINDS = ["words", "long", "cells", "runs", "wide"]
WORDS = [
    r"want of memory", r"memory (?:runs|ran) out", r"(?:is|are|was|were|be|been) told", r"tells?", r"behind", r"besides",
    r"so many", r"as many", r"(?:can|can't|cannot|may|might) (?:not )?stand", r"stands? (?:in|on)", r"faults? of (?:a|the) draft",
    r"live", r"leads? on", r"go(?:es)? on", r"(?:asked|called) for", r"br(?:eak|eaks|oken|oke) off", r"(?:is|are) no", r"just (?:this|these|those|where|what)",
]
LISTED = re.compile(r"\b(?<!there )(?:" + "|".join(WORDS) + r")\b(?! (?:longer|more|less|larger|greater|smaller|later)\b)", re.I)
PAGES = ["README.md", "CHANGES.md", "docs/*.md", "examples/*.md", "bench/*.md", "c/*.md", "python/*.md", "r/*.md", "tools/*.md"]


def page_blocks(text):
    """Returns the paragraphs and the table cells of a page, without code."""
    text = re.sub(r"```.*?```", "", text, flags=re.S)
    blocks, cells, paragraph = [], [], []
    for line in text.split("\n") + [""]:
        if line.startswith("    ") and not paragraph:
            continue
        if line.startswith("|"):
            row = [it.strip() for it in re.sub(r"`[^`]*`", lambda m: m.group(0).replace("|", "/"), line).strip().strip("|").split("|")]
            cells += [it for it in row if not re.fullmatch(r":?-+:?", it)]
        elif not line.strip() or re.match(r"\s*(?:[-*#>]|\d+\.)\s", line):
            blocks.append(" ".join(paragraph))
            paragraph = [re.sub(r"^\s*(?:[-*#>]+|\d+\.)\s", "", line)] if line.strip() else []
        else:
            paragraph.append(line.strip())
    blocks.append(" ".join(paragraph))
    return [it for it in blocks if it], cells


def comment_blocks(text, mark):
    """Returns the comments of a source: lines that follow one another are one."""
    blocks, lines = [], []
    for line in text.split("\n") + [""]:
        found = re.match(r"\s*" + mark + r"\s?(.*)", line)
        rest = found and found.group(1)
        if rest and not rest.startswith(("    ", "|")) and not re.fullmatch(r"[-= ]*", rest):
            if re.match(r"(?:[-*]|\d+\.)\s", rest):
                blocks.append(" ".join(lines))
                lines = []
            lines.append(rest)
        else:
            blocks.append(" ".join(lines))
            lines = []
    return [it for it in blocks if it]


def sentences(block):
    """Returns the sentences of a paragraph, each code span as one word."""
    plain = re.sub(r"`[^`]*`", "code", re.sub(r"\[([^\]]*)\]\([^)]*\)", r"\1", block))
    return re.split(r"(?<=[.!?])[)*\"']*\s+", plain)


def short_runs(block):
    """Returns how many times four short sentences follow one another in a paragraph."""
    runs, short = 0, 0
    for sentence in sentences(block):
        short = short + 1 if 0 < len(sentence.split()) <= 9 else 0
        if short == 4:
            runs, short = runs + 1, 0
    return runs


def wide_lines(text):
    """Returns how many lines are too long, but for string literals and attributes."""
    quoted = r"'(?:[^'\\\n]|\\.)'" + r'|r#".*?"#|"(?:[^"\\]|\\.)*"'
    text = re.sub(quoted, lambda m: '""' + "\n" * m.group(0).count("\n"), text, flags=re.S)
    return sum(1 for it in text.split("\n") if len(it.encode()) > 140 and not it.lstrip().startswith(("#[", "#![")))


def parts():
    """Returns the files of each part of the repository, by its name."""
    found = {}
    for pattern in PAGES:
        for path in sorted(glob.glob(os.path.join(TOP, pattern))):
            found[os.path.relpath(path, TOP)] = [path]
    for crate in sorted(glob.glob(os.path.join(TOP, "crates", "*"))):
        files = [it for kind in ("src/**/*.rt", "specs/**/*.antt", "proofs/**/*.antt") for it in glob.glob(os.path.join(crate, kind), recursive=True)]
        found[os.path.relpath(crate, TOP)] = sorted(files)
    return found


def counts_of(files, places):
    """Returns the counts of some files, and notes the places of words."""
    counts = dict.fromkeys(KINDS, 0)
    for path in files:
        with open(path, encoding="utf-8") as file:
            text = file.read()
        blocks, cells = page_blocks(text) if path.endswith(".md") else (comment_blocks(text, "//[/!]?" if path.endswith(".rt") else "--"), [])
        for block in blocks + cells:
            plain = re.sub(r"`[^`]*`", "code", block)
            for found in LISTED.finditer(plain):
                counts["words"] += 1
                places.append((os.path.relpath(path, TOP), found.group(0), plain[max(found.start() - 40, 0) : found.end() + 40]))
            counts["long"] += sum(1 for it in sentences(block) if len(it.split()) > 30)
            counts["runs"] += short_runs(block)
        counts["cells"] += sum(1 for it in cells if len(it) > 160)
        if path.endswith(".rt"):
            counts["wide"] += wide_lines(text)
    return counts


def bounds():
    """Returns the bounds of each part; a part without a line has 0 for each."""
    found = {}
    if os.path.exists(BOUNDS):
        with open(BOUNDS, encoding="utf-8") as file:
            for line in file:
                name, *numbers = line.split()
                found[name] = dict(zip(KINDS, map(int, numbers)))
    return found


def main(words):
    options, names = [it for it in words if it.startswith("--")], [os.path.normpath(it) for it in words if not it.startswith("--")]
    if set(options) - {"--all", "--write"}:
        print(__doc__, end="")
        return 2
    limits, above, total, places = bounds(), [], dict.fromkeys(KINDS, 0), []
    counted = {name: counts_of(files, places) for name, files in parts().items() if not names or name in names}
    for name, counts in counted.items():
        total = {kind: total[kind] + counts[kind] for kind in KINDS}
        limit = limits.get(name, dict.fromkeys(KINDS, 0))
        over = [f"{kind} {counts[kind]} above {limit[kind]}" for kind in KINDS if counts[kind] > limit[kind]]
        if over:
            above.append(name)
        if over or "--all" in options:
            print(f"{name}: " + (", ".join(over) if "--all" not in options else ", ".join(f"{kind} {counts[kind]}" for kind in KINDS)))
    if "--all" in options:
        for place in places if names else []:
            print("  {}: {!r} in ..{}..".format(*place))
        print("all: " + ", ".join(f"{kind} {total[kind]}" for kind in KINDS))
    if "--write" in options:
        with open(BOUNDS, "w", encoding="utf-8") as file:
            for name, counts in counted.items():
                least = {kind: min(counts[kind], limits.get(name, counts)[kind]) for kind in KINDS}
                if any(least.values()):
                    file.write(f"{name} " + " ".join(str(least[kind]) for kind in KINDS) + "\n")
    return 1 if above and "--write" not in options else 0


sys.exit(main(sys.argv[1:]))
