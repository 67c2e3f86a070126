#!/usr/bin/env python3
"""Runs each wrong body of the table of docs/TESTING.md, and requires that the row of its line fails.

    bench/named.py [--jobs N] [--room FOLDER] [--of CRATE ..] [--find]

    --jobs N       runs at a time (1)
    --room FOLDER  the folder of the copy of the repository; it is kept, and what is built there is used again (by default a
                   folder of its own, which is removed at the end)
    --of CRATE ..  only the wrong bodies of these crates (all)
    --find         prints every row and test that fails, whatever the table says

The prover refuses a wrong body for some reason. This script shows that the body is wrong in the way that its line says: built
without proofs, it fails a run whose end was found by hand. The line names that run in its fourth cell (see bench/planted.py).

The script works on a copy, in which each function that an edit changes has two bodies and a switch between them (see
bench/wants.py). So acceptance and the crates of tests are built once for all wrong bodies, and then run with one switch on.

Prints a line for each wrong body, `fails NAME of CRATE at PLACE`, `passes ..`, `no such test ..` if there is no test of this name
that passes with the right bodies, or `not compiled ..`. Ends with status 1 unless each wrong body fails, or its line has a reason.
Needs rt, cc and Linux, and two to four minutes of two processors for each crate that it builds.
"""
import argparse
import concurrent.futures
import os
import pathlib
import re
import shutil
import subprocess
import sys
import tempfile

import planted
import wants

TOP = wants.TOP
TABLES = f"{TOP}/crates/acceptance/data"


def read(path):
    """Returns the text of a file of the repository."""
    with open(f"{TOP}/{path}", encoding="utf-8") as it:
        return it.read()


class Body:
    """A wrong body: its name, its crate, the run that it fails, and the function that it changes."""

    def __init__(self, row):
        self.name, self.crate = row.name, row.crate
        found = planted.RUN.fullmatch(row.run)
        if not found:
            sys.exit(f"docs/TESTING.md: {row.name}: not the name of a run: {row.run}")
        self.row = found.groupdict()
        self.change = change_of(row.crate, row.name)
        self.number = None

    def __str__(self):
        return f"{self.name} of {self.crate}"


def bodies_in(text):
    """Yields the place after the opening brace, and the end, of the body of each function of a text, and None for one without."""
    for found in re.finditer(r"(?m)^[ ]*(?:pub(?:\(crate\))? )?(?:const |unsafe )*fn \w+", text):
        _, body = wants.body_of(text, wants.skip_parameters(text, found.end()))
        yield body and (body, wants.skip_brackets(text, body - 1) - 1)


def change_of(crate, name):
    """Returns the file, the place of the body, and the new body of the one function that an edit changes."""
    edit = pathlib.Path(TOP, "crates", crate, "must-fail", f"{name}.edit")
    texts, changes = {}, []
    for file, old, new in planted.edit_pairs(edit):
        path = f"crates/{crate}/{file}"
        texts.setdefault(path, read(path))
        texts[path] = texts[path].replace(old, new, 1)
    for path, changed in texts.items():
        text = read(path)
        for before, after in zip(bodies_in(text), bodies_in(changed)):
            if before and after and text[slice(*before)] != changed[slice(*after)]:
                changes.append((path, before[0], changed[slice(*after)]))
    if len(changes) != 1:
        sys.exit(f"{edit}: it changes {len(changes)} functions")
    return changes[0]


def said_by(tests, name, number):
    """Returns whether a test ends well with a switch on, and what it prints."""
    with open(f"{tests.room}/words", "rb") as it:
        words = it.read().decode().split("\0")[:-1]
    with tempfile.TemporaryDirectory(dir=tests.room) as folder:
        if tests.crate in wants.ACCEPTANCE:
            shutil.copytree(TABLES, folder, dirs_exist_ok=True)
        try:
            ran = subprocess.run(
                ["nice", "-n", "5", *words, f"{tests.room}/program", name],
                cwd=folder,
                env={"WANTS_REFUSED": str(number)},
                stdin=subprocess.DEVNULL,
                stdout=subprocess.PIPE,
                stderr=subprocess.STDOUT,
                timeout=wants.TABLE_SECONDS,
                check=False,
            )
        except subprocess.TimeoutExpired:
            return False, "takes too long"
    return ran.returncode == 0, ran.stdout.decode(errors="replace")


def place_of(body):
    """Returns the crate, the test or table, and the line of the run that a wrong body has to fail."""
    if body.row["table"]:
        return "acceptance", body.row["table"], planted.row_line(body.row["table"], body.row["words"], int(body.row["nth"] or 1))
    return body.row["crate"], body.row["test"], None


def fails(body, tests):
    """Whether the run of a wrong body fails."""
    crate, name, line = place_of(body)
    is_clean, said = said_by(tests[crate], name, body.number)
    return not is_clean and (line is None or f"{name}:{line}: " in said)


def all_failing(body, tests):
    """Yields each row and test that fails with a wrong body."""
    for crate, built in tests.items():
        for name in built.names:
            is_clean, said = said_by(built, name, body.number)
            if not is_clean:
                lines = sorted({int(it) for it in re.findall(re.escape(name) + r":(\d+): ", said)})
                yield f"{crate} {name} {lines[:9]}" if lines else f"{crate} {name}"


def copy_with(bodies, room):
    """Returns a copy of the repository with a switch for each wrong body."""
    functions = []
    for body in bodies:
        path, place, changed = body.change
        body.number = len(functions)
        functions.append(wants.Function(body.crate, path, body.name, place, "{" + changed + "}"))
    return wants.Copy(room, (functions, {file: text for file, (_, text) in wants.texts_in(TOP).items()}))


def run(bodies, room, jobs, is_finding):
    copy = copy_with(bodies, room)
    crates = {"acceptance"} | {place_of(it)[0] for it in bodies if not it.row["reason"]}
    if is_finding:
        crates |= {it for it in copy.uses if it.startswith("tests_")}
    tests, status = {}, 0
    for crate in sorted(crates):
        _, built = wants.built(copy, crate, [], None if is_finding else sorted({it.row["table"] for it in bodies if it.row["table"]}))
        if built is None:
            return 1
        tests[crate] = built

    def answer(body):
        if copy.functions[body.number].why:
            return f"not compiled {body}: {copy.functions[body.number].why}", True
        if is_finding:
            return f"{body}: " + "; ".join(all_failing(body, tests)), False
        if body.row["reason"]:
            return f"no row for {body}: {body.row['reason']}", False
        crate, name, line = place_of(body)
        place = f"{name}:{line}" if line else f"{crate} {name}"
        if name not in tests[crate].names:
            return f"no such test for {body}: {place}", True
        is_failing = fails(body, tests)
        return f"{'fails' if is_failing else 'passes'} {body} at {place}", not is_failing

    with concurrent.futures.ThreadPoolExecutor(jobs) as pool:
        for line, is_wrong in pool.map(answer, bodies):
            print(line, flush=True)
            status |= is_wrong
    return status


def main():
    words = argparse.ArgumentParser(description=__doc__, formatter_class=argparse.RawDescriptionHelpFormatter)
    words.add_argument("--jobs", type=int, default=1)
    words.add_argument("--room")
    words.add_argument("--of", nargs="+")
    words.add_argument("--find", action="store_true")
    given = words.parse_args()
    with open(planted.PAGE, encoding="utf-8") as page:
        rows = planted.named_bugs(page.read())
    bodies = [Body(row) for row in rows if not given.of or row.crate in given.of]
    room = os.path.abspath(given.room) if given.room else tempfile.mkdtemp(prefix="named-")
    try:
        os.makedirs(room, exist_ok=True)
        return run(bodies, room, given.jobs, given.find)
    finally:
        if not given.room:
            shutil.rmtree(room)


if __name__ == "__main__":
    sys.exit(main())
