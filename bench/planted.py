#!/usr/bin/env python3
"""Checks the planted bugs: the edits crates/CRATE/must-fail/NAME.edit, each of which the prover has to refuse.

    bench/planted.py

docs/TESTING.md has a table whose heading is `| Wrong body | Crate | What it does | Run that it fails | Refused by |`: wrong bodies
that are always planted. bench/named.py requires that each fails its run. The fourth cell of a line names this run:

    `TABLE` "WORDS"           the first row of crates/acceptance/data/TABLE after the comment with these words
    `TABLE` "WORDS" row N     the N-th of these rows
    `CRATE` `TEST`            a test of this crate
    none: REASON              no run can fail, for this reason

The check fails if

- one of them has no edit of its name in its crate, or a cell of its line is empty;
- its run is not there;
- there are more than 165 planted bugs in all;
- an edit changes something else than a source (`file: src/..`), since the refusal of another definition or proof shows nothing;
- the `old:` text of an edit does not stand exactly once in its file, after the edit's earlier pairs.

`rt ci` tries the edits themselves, and passes over one that cannot be applied. Prints how many there are, and a line for each
failure. Ends with status 1 if there is one.
"""
import collections
import pathlib
import re
import sys

TOP = pathlib.Path(__file__).resolve().parent.parent
PAGE = TOP / "docs" / "TESTING.md"
HEADING = "| Wrong body | Crate | What it does | Run that it fails | Refused by |"
MOST = 165

RUN = re.compile(r'`(?P<table>[^`]+\.rows)` "(?P<words>[^"]+)"(?: row (?P<nth>\d+))?|`(?P<crate>\w+)` `(?P<test>[\w:]+)`|none: (?P<reason>.+)')

Row = collections.namedtuple("Row", "name crate does run clause")


def named_bugs(page):
    """Returns the rows of the table of wrong bodies."""
    lines = page.split("\n")
    if HEADING not in lines:
        return []
    rows = []
    for line in lines[lines.index(HEADING) + 2 :]:
        if not line.startswith("|"):
            break
        cells = [cell.strip() for cell in line.strip("|").split("|", 4)]
        rows.append(Row(cells[0].strip("`"), *(cells[1:] + [""] * 4)[:4]))
    return rows


def missing_bugs(rows, edits):
    """Yields a line for each wrong body of the table that has no edit or no clause."""
    if not rows:
        yield f"{PAGE.relative_to(TOP)}: no table with the heading {HEADING}"
    for row in rows:
        if (row.crate, row.name) not in edits:
            yield f"crates/{row.crate}/must-fail/{row.name}.edit: missing"
        if not all(row):
            yield f"{PAGE.relative_to(TOP)}: {row.name}: an empty cell"


def row_line(table, words, nth):
    """Returns the number of the line of the n-th row of a table after the comment with these words, or 0 if there is none. Exactly one
    comment has to have them."""
    path = TOP / "crates" / "acceptance" / "data" / table
    lines = path.read_text(encoding="utf-8").split("\n") if path.is_file() else []
    found = [n for n, line in enumerate(lines) if line.startswith("#") and words in line]
    rows = [n + 1 for n in range(found[0], len(lines)) if re.match(r"(run|run_study|file_word)\b", lines[n])] if len(found) == 1 else []
    return rows[nth - 1] if nth <= len(rows) else 0


def has_test(crate, test):
    """Whether a crate has a test of this name, which begins with its file."""
    *file, name = test.split("::")
    path = TOP.joinpath("crates", crate, "src", *(file or ["lib"])).with_suffix(".rt")
    return path.is_file() and bool(re.search(rf"(?m)^#\[test\]\nfn {name}\(", path.read_text(encoding="utf-8")))


def missing_runs(rows):
    """Yields a line for each wrong body of the table whose run is not there."""
    for row in rows:
        run = RUN.fullmatch(row.run)
        if not run:
            yield f"{PAGE.relative_to(TOP)}: {row.name}: not the name of a run: {row.run}"
        elif run["table"] and not row_line(run["table"], run["words"], int(run["nth"] or 1)):
            yield f"{PAGE.relative_to(TOP)}: {row.name}: no such row: {row.run}"
        elif run["crate"] and not has_test(run["crate"], run["test"]):
            yield f"{PAGE.relative_to(TOP)}: {row.name}: no such test: {row.run}"


def edit_pairs(edit):
    """Returns the file that an edit changes, and its pairs of an old and a new text."""
    file, old, pairs = None, None, []
    for line in edit.read_text(encoding="utf-8").split("\n"):
        if line.startswith("file: "):
            file = line.removeprefix("file: ").strip()
        elif line.startswith("old: "):
            old = line.removeprefix("old: ")
        elif line.startswith("new:") and old is not None:
            pairs.append((file, old, line.removeprefix("new:").removeprefix(" ")))
    return pairs


def unapplied_texts(edit):
    """Yields a line for each old text of an edit that does not stand exactly once in its file."""
    place, changed = edit.relative_to(TOP), {}
    pairs = edit_pairs(edit)
    if not pairs:
        yield f"{place}: no pair of texts"
    for file, old, new in pairs:
        source = edit.parent.parent / (file or "")
        if not (file or "").startswith("src/"):
            yield f"{place}: it changes {file}, which is not below src"
        if source not in changed:
            if not source.is_file():
                yield f"{place}: no file {file}"
                return
            changed[source] = source.read_text(encoding="utf-8")
        count = changed[source].count(old)
        if count != 1:
            yield f"{place}: its old text stands {count} times in {file}: {old.strip()}"
        changed[source] = changed[source].replace(old, new, 1)


def main():
    edits = {(edit.parent.parent.name, edit.stem): edit for edit in sorted(TOP.glob("crates/*/must-fail/*.edit"))}
    rows = named_bugs(PAGE.read_text(encoding="utf-8"))
    failures = [*missing_bugs(rows, edits), *missing_runs(rows)]
    if len(edits) > MOST:
        failures.append(f"{len(edits)} planted bugs, more than {MOST}")
    for edit in edits.values():
        failures.extend(unapplied_texts(edit))
    for failure in failures:
        print("planted bugs:", failure)
    print(f"{len(edits)} planted bugs, {len(rows)} wrong bodies of the table, {len(failures)} failures")
    sys.exit(1 if failures else 0)


if __name__ == "__main__":
    main()
