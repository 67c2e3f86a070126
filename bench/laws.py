#!/usr/bin/env python3
"""Writes docs/LAWS.md, the list of all laws, from the crates.

    bench/laws.py [--write]

A law is a public function with an empty body, in `src/laws.rt` or `src/laws` of its crate, or in another file of textbook. The page
has the name of each, and the comment over it. Without --write, prints the laws in which the page differs from the crates, and
ends with status 1 if there is one.
"""
import pathlib
import re
import sys

TOP = pathlib.Path(__file__).resolve().parent.parent
PAGE = TOP / "docs" / "LAWS.md"
HEADINGS = {
    "numbers": "Numbers, graphs and sets",
    "devices": "Devices",
    "cases": "Cases",
    "reading": "Forms of cases",
    "nets": "Removals",
    "deciding": "Decisions",
    "evidence": "Evidence",
    "ends": "Reports",
    "studies": "Studies",
    "program": "What the program prints",
    "laws": "Laws over all crates",
    "tests": "Tests",
}
HEAD = """# The laws

This page is for an engineer or a reviewer who looks for a law by its crate. A law is a function with an empty body: its contract states the law by words of `specs`, and its comment, which stands here, states it in plain words. [PROMISES](PROMISES.md) names the laws that carry a promise.

`bench/laws.py --write` makes this page from the crates.
"""
LAW = re.compile(r"(?m)((?:^ *///[^\n]*\n)+)(?:^ *#\[[^\n]*\n)*^ *pub fn (\w+)")


def law_files(crate):
    """Returns the files of a crate that may hold laws."""
    folder = TOP / "crates" / crate / "src"
    files = [folder / "laws.rt", *sorted((folder / "laws").glob("*.rt"))]
    if crate == "textbook":
        files = sorted(folder.glob("*.rt"))
    return [it for it in files if it.is_file()]


def laws_of(crate):
    """Yields the name and the words of each law of a crate."""
    for file in law_files(crate):
        text = file.read_text(encoding="utf-8")
        for found in LAW.finditer(text):
            rest = text[found.end() :]
            body = re.search(r"(?m)^ *\{\}$|\{\}$|^ *\{$", rest)
            if body and body.group(0).strip() == "{}":
                lines = [line.strip().removeprefix("///").strip() for line in found.group(1).splitlines()]
                yield found.group(2), "\n".join(lines).strip()


def item(name, words):
    """Returns the entry of a law."""
    paragraphs = [" ".join(it.split("\n")) for it in re.split(r"\n\n|\n(?=- )", words)]
    first, rest = paragraphs[0], [it for it in paragraphs[1:] if it]
    return "\n".join([f"- `{name}`. {first}", *(f"  {it}" for it in rest)])


def page():
    """Returns the page."""
    parts, heading = [HEAD], None
    for line in (TOP / "crates.txt").read_text(encoding="utf-8").splitlines():
        if line.startswith("#"):
            heading = HEADINGS[line.strip("# ").strip()]
            continue
        crate = line.partition(":")[0].split(" ")[0]
        laws = [*laws_of(crate)] if crate else []
        if laws:
            if heading:
                parts.append(f"## {heading}\n")
                heading = None
            parts.append(f"### {crate}\n\n" + "\n".join(item(*it) for it in laws) + "\n")
    return "\n".join(parts)


def main(words):
    made = page()
    if words == ["--write"]:
        PAGE.write_text(made, encoding="utf-8")
        return 0
    if words:
        print(__doc__, end="")
        return 2
    old, new = (set(it.split("\n")) for it in (PAGE.read_text(encoding="utf-8"), made))
    for line in sorted(new ^ old):
        print(f"docs/LAWS.md {'lacks' if line in new else 'has no law for'}: {line[:150]}")
    count = made.count("\n- `")
    print(f"{count} laws, {len(new ^ old)} lines differ" + ("" if made == PAGE.read_text(encoding="utf-8") else "; bench/laws.py --write"))
    return 0 if made == PAGE.read_text(encoding="utf-8") else 1


if __name__ == "__main__":
    sys.exit(main(sys.argv[1:]))
