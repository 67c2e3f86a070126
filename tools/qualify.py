#!/usr/bin/env python3
"""Tests whether what is installed is what was proved, and whether it works on this machine. For the installation and operational
qualification of a trial site.

    welungad-qualify [--out FOLDER]
    tools/qualify.py [--out FOLDER] [--door NAME=FOLDER]..
    tools/qualify.py --calls FOLDER

It compares

- each installed file with its SHA-256, and the program and the C library with those that were proved;
- what each example prints, and each command that examples/README.md names, with that page: by the program, by the C library in
  process, and by each other door;
- the decision on each example with the checks by definition: closed_test.py (rejections, adjusted p-values, bounds, looks) and
  check_evidence.py, which share no code with the program;
- the page of a decision with its own case, by check_page.py.

It writes `qualification.txt` and `qualification.html` into FOLDER (the present one by default) and prints the first. They have the
machine, the versions, the digests, each comparison with its result, and lines to sign. It ends with status 0 only if no comparison
failed, and with 1 if one did. What was skipped is named, with the cause.

The other doors are R and Python: `welungad_qualify()` in R, and `python3 -m welungad.qualify`. With --calls the calls are written
into a folder: N.words, N.case and N.proof for each N from 1. A door answers each by N.status and N.text, and its name may have lines
of versions in `about`.
"""
import argparse
import base64
import ctypes
import csv
import datetime
import glob
import hashlib
import os
import platform
import re
import shlex
import shutil
import subprocess
import sys
import sysconfig
import tempfile
from collections import namedtuple
from html import escape

HERE = os.path.dirname(os.path.abspath(__file__))
MOST, SECONDS = 12, 300  # hypotheses of a check by definition; the longest run of a program

Call = namedtuple("Call", "section words case proof target wanted")
Row = namedtuple("Row", "verdict part what cause")


def content(path):
    with open(path, encoding="utf-8") as file:
        return file.read()


def digest_of(path):
    with open(path, "rb") as file:
        return hashlib.sha256(file.read()).hexdigest()


# ---- what is installed


class Installation:
    """Where the program, the library, the examples and the scripts are. `files` are those that have a digest: what each is called,
    its path, and the SHA-256 that it has to have."""

    def __init__(self):
        self.above, self.files, self.library = os.path.dirname(HERE), [], None
        self.examples = os.path.join(self.above, "examples")
        if os.path.basename(HERE) == "reviewer":
            self.find_wheel()
        elif os.path.isfile(os.path.join(self.above, "identity")) or self.above.endswith(os.path.join("share", "welungad")):
            self.find_prefix()
        else:
            self.find_checkout()

    def find_prefix(self):
        self.kind, self.top = "prefix", os.path.dirname(os.path.dirname(self.above))
        self.program = os.path.join(self.top, "bin", "welungad")
        places = {"welungad": self.program, "digests": os.path.join(self.above, "digests")}
        self.identity = os.path.join(self.above, "identity")
        for name, digest in self.stamped(self.identity):
            path = places.get(name, os.path.join(self.top, "lib", name))
            self.files.append((os.path.relpath(path, self.top), path, digest))
            self.library = path if name.endswith(".so") else self.library
        if os.path.isfile(places["digests"]):
            for line in content(places["digests"]).splitlines():
                digest, name = line.split("  ", 1)
                self.files.append((name, os.path.join(self.top, name), digest))

    def find_wheel(self):
        self.kind, self.top = "wheel", os.path.dirname(self.above)
        self.identity = os.path.join(self.above, "stamp")
        self.program = os.path.join(sysconfig.get_path("scripts"), "welungad")
        for record in glob.glob(os.path.join(self.top, "welungad-*.dist-info", "RECORD")):
            with open(record, encoding="utf-8", newline="") as file:
                for name, digest, _ in csv.reader(file):
                    path = os.path.normpath(os.path.join(self.top, name))
                    if digest.startswith("sha256="):
                        self.files.append((name, path, base64.urlsafe_b64decode(digest[7:] + "=").hex()))
                    if os.path.basename(path) == "welungad" and os.path.isfile(path):
                        self.program = path
        self.library = os.path.join(self.above, "libwelungad.so")
        places = {"welungad": self.program, "libwelungad.so": self.library}
        self.files += [(f"{name} of the stamp", places.get(name, name), digest) for name, digest in self.stamped(self.identity)]

    def find_checkout(self):
        self.kind, self.top = "checkout", self.above
        self.program, built = (os.path.join(self.top, *path.split("/")) for path in ("crates/welungad/out/welungad", "c/out"))
        self.library = os.path.join(built, "libwelungad.so")
        self.identity = os.path.join(os.path.dirname(self.program), "stamp")
        for folder in (os.path.dirname(self.program), built):
            for name, digest in self.stamped(os.path.join(folder, "stamp")):
                self.files.append((name, os.path.join(folder, name), digest))

    @staticmethod
    def stamped(path):
        """The names and digests of a stamp or an identity. None if there is no such file, which is a failed comparison elsewhere."""
        lines = content(path).splitlines() if os.path.isfile(path) else []
        return [line.split(" ")[1:] for line in lines if re.fullmatch("sha256 [^ ]+ [0-9a-f]{64}", line)]


def check_files(place):
    """Yields the comparisons of the files with their digests."""
    if not place.files:
        yield Row("failed", "files", place.top, f"nothing says which files were proved: there are no digests in {place.identity}")
    for name, path, digest in place.files:
        if not os.path.isfile(path):
            yield Row("failed", "files", name, f"{path} is missing")
            continue
        found = digest_of(path)
        yield Row("passed", "files", name, f"SHA-256 {digest}") if found == digest else Row(
            "failed", "files", name, f"{path} is not the file that was installed: its SHA-256 is {found}, not {digest}")


def is_proved(place, path):
    """Whether a file has the digest that the installation has for it."""
    wanted = {digest for _, known, digest in place.files if os.path.realpath(known) == os.path.realpath(path)}
    return os.path.isfile(path) and {digest_of(path)} == wanted


# ---- the calls that the page of the examples has


def blocks_of(section):
    """The texts that are shown in a section."""
    return ["".join(line[4:] + "\n" for line in block.splitlines()) for block in re.findall(r"(?:^    .*\n)+", section, re.MULTILINE)]


def calls_of(place):
    """Yields the calls of the page: each command that it names, and `test` or `stages` for each further example of a heading."""
    for section in re.split(r"^## ", content(os.path.join(place.examples, "README.md")) + "\n", flags=re.MULTILINE)[1:]:
        blocks = blocks_of(section)
        commands = [shlex.split(line) for line in re.findall(r"\./welungad ([^`\n]*)", section)]
        named = {word for words in commands for word in words}
        for name in section.split("\n")[0].split(" and "):
            path = os.path.join(place.examples, f"{name}.txt")
            if f"examples/{name}.txt" not in named and (os.path.isfile(path) or not commands):
                staged = os.path.isfile(path) and re.search(r"^stages ", content(path), re.MULTILINE)
                yield Call(name, ["stages" if staged else "test"], path, None, None, blocks)
        for words in commands:
            case = os.path.join(os.path.dirname(place.examples), words[words.index("<") + 1]) if "<" in words else None
            target = words[words.index(">") + 1] if ">" in words else None
            words = words[: min([words.index(it) for it in "<>" if it in words] or [len(words)])]
            proof = next((word for word in words[1:2] if words[0] in ("check", "study")), None)
            if proof and proof.startswith("examples/"):
                words = [words[0], os.path.join(os.path.dirname(place.examples), proof), *words[2:]]
                proof = words[1]
            yield Call(section.split("\n")[0], words, case, proof, target, blocks)


def shown(call):
    names = [os.path.basename(word) if os.sep in word else word for word in call.words]
    return " ".join(names) + (f" < {os.path.basename(call.case)}" if call.case else "")


# ---- the doors: each runs words on a case, with a document as the file that the words name, and returns the status and the text


class ProgramDoor:
    name = "program"

    def __init__(self, place, room):
        self.program, self.room = place.program, room

    def run(self, words, case, proof=None):
        if proof is not None and words[0] == "check":
            with open(os.path.join(self.room, words[1]), "wb") as file:
                file.write(proof)
        done = subprocess.run([self.program, *words], input=case, stdout=subprocess.PIPE, stderr=subprocess.STDOUT, cwd=self.room, timeout=SECONDS,
                              check=False)
        return done.returncode, done.stdout


class LibraryDoor:
    name = "C library, in process"

    def __init__(self, path):
        library = ctypes.CDLL(path)
        self.call, library.welungad_version.restype = library.welungad_run, ctypes.c_char_p
        self.call.restype, self.version = ctypes.c_uint8, library.welungad_version().decode()

    def run(self, words, case, proof=None):
        given = b"".join(word.encode() + b"\0" for word in words)
        size, proof = 1 << 16, proof or b""
        while True:
            out, needed = ctypes.create_string_buffer(size), ctypes.c_size_t()
            parts = [(text, ctypes.c_size_t(len(text))) for text in (given, case, proof)]
            status = self.call(*(it for part in parts for it in part), out, ctypes.c_size_t(size), ctypes.byref(needed))
            if status != 7 or needed.value <= size:
                return status, out.raw[: needed.value]
            size = needed.value


class FolderDoor:
    """A door that has answered the calls of --calls."""

    def __init__(self, name, folder):
        self.name, self.folder = name, folder

    def answer(self, n):
        place = os.path.join(self.folder, str(n))
        if not os.path.isfile(f"{place}.status"):
            return None
        with open(f"{place}.text", "rb") as file:
            return int(content(f"{place}.status")), file.read()


def read_case(call):
    if call.case is None:
        return b""
    with open(call.case, "rb") as file:
        return file.read()


def write_calls(place, folder):
    """Writes the calls into a folder, for a door. A document that a call before it prints is taken from the page."""
    os.makedirs(folder, exist_ok=True)
    made = {}
    for n, call in enumerate(calls_of(place), 1):
        at = os.path.join(folder, str(n))
        with open(f"{at}.words", "w", encoding="utf-8") as file:
            file.write("".join(word + "\n" for word in call.words))
        with open(f"{at}.case", "wb") as file:
            file.write(read_case(call) if call.case is None or os.path.isfile(call.case) else b"")
        if call.proof is not None:
            with open(f"{at}.proof", "w", encoding="utf-8") as file:
                file.write(made[call.proof] if call.proof in made else content(call.proof))
        if call.target:
            made[call.target] = call.wanted[0]


def answer_of(door, n, call, made):
    """The status and the text of the n-th call by a door; None if the door does not make it. A file of looks is opened by the program alone."""
    if isinstance(door, FolderDoor):
        return door.answer(n)
    if call.words[0] == "study" and not isinstance(door, ProgramDoor):
        return None
    proof = None if call.proof is None or os.path.isabs(call.proof) else made.get(call.proof, b"")
    return door.run(call.words, read_case(call), proof)


def check_calls(place, door):
    """Yields the comparisons of what a door answers with the page."""
    made, called = {}, set()
    for n, call in enumerate(calls_of(place), 1):
        what = shown(call)
        missing = [path for path in (call.case, call.proof) if path and os.path.isabs(path) and not os.path.isfile(path)]
        if missing:
            yield Row("failed", door.name, what, f"the example {missing[0]} is missing")
            continue
        try:
            answer = answer_of(door, n, call, made)
        except Exception as error:  # whatever stops a door is a failed comparison, and not the end of the others
            yield Row("failed", door.name, what, f"it cannot be called: {error}"[:300])
            continue
        if answer is None:
            yield Row("skipped", door.name, what, "a study keeps a file, which the program opens" if call.words[0] == "study" else "it was not called")
            continue
        called.add(call.words[0])
        status, text = answer
        if call.target:
            made[call.target] = text
        if text.decode("utf-8", "replace") in call.wanted:
            yield Row("passed", door.name, what, f"as the section {call.section} of the examples has it")
        else:
            first = text.decode("utf-8", "replace").split("\n")[0]
            yield Row("failed", door.name, what, f"status {status}, and no text of the section {call.section} of the examples: {first[:80]}")
    if called and not isinstance(door, FolderDoor):
        yield from check_commands(door, called)


def check_commands(door, called):
    """Yields whether each command that `help` names was called."""
    status, text = door.run(["help"], b"")
    commands = [line.split(" ")[0] for line in text.decode("utf-8", "replace").splitlines()]
    left = [word for word in commands if word not in {*called, "help", "end"}]
    if status or commands[-1:] != ["end"]:
        yield Row("failed", door.name, "help", f"status {status}, and not the list of the commands")
    elif left == ["study"] and not isinstance(door, ProgramDoor):
        yield Row("passed", door.name, "help", "each command that it names was called, but study, which the program runs")
    else:
        yield Row("failed" if left else "passed", door.name, "help", f"not called: {' '.join(left)}" if left else "each command that it names was called")


# ---- the checks by definition


def run_script(name, *words):
    done = subprocess.run([sys.executable, "-B", os.path.join(HERE, name), *words], stdout=subprocess.PIPE, stderr=subprocess.PIPE, timeout=SECONDS,
                          check=False)
    return done.returncode, done.stdout.decode("utf-8", "replace"), done.stderr.decode("utf-8", "replace")


def lines_of(text, *words):
    return [line for line in text.split("\n") if line.split(" ")[0] in words]


def looks_of(report):
    """The arrivals of a report of `stages`, each with what is rejected after it."""
    looks, rejected = [], set()
    for line in lines_of(report, "arrive", "reject"):
        if line.startswith("arrive"):
            looks.append((line, {*rejected}))
        else:
            rejected.add(line.split(" ")[1])
            looks[-1] = (looks[-1][0], {*rejected})
    return looks


def check_definitions(door, place, room):
    """Yields the comparisons of the decisions on the examples with the checks by definition."""
    done = set()
    for call in calls_of(place):
        if call.words[0] not in ("test", "stages") or not os.path.isfile(call.case) or call.case in done:
            continue
        done.add(call.case)
        name, options, given = os.path.basename(call.case), call.words[1:], read_case(call)
        status, text = door.run(call.words, given)
        yield from check_evidence(door, name, call, given, room) if call.words[0] == "test" else []
        if status == 0:
            yield from check_closed(door, name, call, text.decode(), [*options])
        else:
            yield Row("skipped", "closed_test.py", name, f"it is refused with status {status}, so there is no decision")


def check_closed(door, name, call, report, options):
    staged = call.words[0] == "stages"
    status, found, error = run_script("closed_test.py", call.case, *options, *([] if staged else ["--adjusted", "--bounds"]))
    if status:
        limited = status == 4 and "hypotheses" in found
        yield Row("skipped" if limited else "failed", "closed_test.py", name,
                  f"more than {MOST} hypotheses" if limited else f"it ends with status {status}: {(found or error).strip()[-100:]}")
        return
    ours = [("rejected", lines_of(found, "rejected"), lines_of(report, "rejected"))]
    if staged:
        mine = [(line.split(" rejected")[0], {*line.split(" rejected")[1].split()}) for line in lines_of(found, "arrive")]
        ours.append(("the decisions after each arrival", mine, looks_of(report)))
    else:
        ours.append(("adjusted p-values", lines_of(found, "adjusted"), lines_of(report, "adjusted")))
        bounds = door.run(["bounds", *options], read_case(call))[1].decode()
        ours.append(("bounds of all sets", lines_of(found, "bound"), lines_of(bounds, "bound")))
    for what, by_definition, printed in ours:
        same = by_definition == printed
        yield Row("passed" if same else "failed", "closed_test.py", f"{name}: {what}",
                  "the same as by the definition" if same else f"by the definition {by_definition}, and printed was {printed}"[:200])


def check_evidence(door, name, call, given, room):
    """Yields whether both checkers say yes to the evidence on an example, and the same."""
    status, evidence = door.run(["evidence", *call.words[1:]], given)
    path, case = os.path.join(room, "evidence.txt"), os.path.join(room, "case.txt")
    with open(case, "wb") as file:
        file.write(door.run(["canon", *call.words[1:]], given)[1])
    if status:
        _, made, error = run_script("make_evidence.py", case)
        evidence = made.encode()
        if error:
            yield Row("failed", "make_evidence.py", name, error.strip()[-160:])
            return
    with open(path, "wb") as file:
        file.write(evidence)
    with open(case, "rb") as file:
        ours = door.run(["check", "evidence.txt"], file.read(), evidence)
    theirs = run_script("check_evidence.py", case, path)
    by = "make_evidence.py made" if status else "printed"
    if theirs[0] or not theirs[1].startswith("yes\n"):
        yield Row("failed", "check_evidence.py", name, f"it says no to the evidence that was {by}: {theirs[1].strip()[:100]}")
    elif ours[0] in (4, 5):
        yield Row("passed", "check_evidence.py", name, f"yes to the evidence that {by}; `check` refuses its size with status {ours[0]}")
    else:
        same = ours == (0, theirs[1].encode())
        yield Row("passed" if same else "failed", "check_evidence.py", name,
                  f"yes to the evidence that was {by}, as `check`" if same else f"yes, and `check` says {ours[1][:80]!r}")


def check_page(make_page, place, room):
    """Yields whether the page of an example says what its case implies."""
    page = os.path.join(room, "page.html")
    for name in ("diabetes.txt", "staged-fractions.txt"):
        case = os.path.join(place.examples, name)
        if not os.path.isfile(case):
            continue
        cause = make_page(case, page)
        if cause:
            yield Row("failed", "page", name, f"there is no page: {cause}")
            continue
        status, text, error = run_script("check_page.py", page)
        yield Row("failed" if status else "passed", "page", name, " ".join((text or error).split())[:200])


def page_by_script(place):
    """The maker of pages of a prefix or a checkout, or None."""
    if not os.path.isfile(os.path.join(HERE, "report.py")):
        return None

    def make(case, page):
        status, _, error = run_script("report.py", case, "--program", place.program, "--out", page)
        return (error.strip() or f"status {status}") if status else ""

    return make


# ---- the report


def version_of(*words):
    """The first line of what a command prints of its version, or that it is missing."""
    if not shutil.which(words[0]):
        return "not on the path"
    done = subprocess.run(words, stdout=subprocess.PIPE, stderr=subprocess.STDOUT, timeout=60, check=False)
    return (done.stdout.decode("utf-8", "replace").splitlines() or ["it prints nothing"])[0]


def about(place, extra):
    system = platform.uname()
    identity = content(place.identity).strip() if os.path.isfile(place.identity) else "missing"
    release = [("Release of the library", extra.pop("library"))] if "library" in extra else []
    return [
        ("Date", datetime.datetime.now(datetime.timezone.utc).strftime("%d %B %Y, %H:%M UTC").lstrip("0")),
        ("Machine", f"{system.node}, {system.machine}, {os.cpu_count()} processors"),
        ("System", f"{system.system} {system.release}, {' '.join(platform.libc_ver())}".strip(", ")),
        ("Python", f"{platform.python_version()}, {sys.executable}"),
        ("R", version_of("R", "--version")),
        ("Installation", f"{place.kind} {place.top}"),
        *release, *extra.items(),
        ("What it was built from", identity),
    ]


def counted(rows):
    return ", ".join(f"{sum(row.verdict == verdict for row in rows)} {verdict}" for verdict in ("passed", "failed", "skipped"))


SIGNATURE = ("Carried out by", "Date", "Signature")
LIMITS = ("This shows that the installed files work here as on the pages. It does not show that they are those that were proved, since it compares them with "
          "lists of the installation itself; PROVED and SHA256SUMS of the release have the digests. It does not show that a case is the one of a protocol.")


def text_of(facts, rows):
    lines = ["Qualification of Welungad: " + ("FAILED" if any(row.verdict == "failed" for row in rows) else "passed"), ""]
    for name, value in facts:
        lines += [f"{name}: {value}"] if "\n" not in value else [f"{name}:", *(f"  {line}" for line in value.split("\n"))]
    lines += ["", f"Comparisons: {counted(rows)}", ""]
    for row in sorted(rows, key=lambda row: ("failed", "skipped", "passed").index(row.verdict)):
        lines.append(f"{row.verdict:8}{row.part}: {row.what}: {row.cause}")
    return "\n".join([*lines, "", LIMITS, "", *(f"{name}: ____________________" for name in SIGNATURE), ""])


STYLE = """body { font: 1rem/1.5 "DejaVu Sans", Verdana, sans-serif; margin: 0 auto; padding: 1rem; max-width: 62rem; color: #111; }
th, td { text-align: left; vertical-align: top; padding: .2rem .6rem .2rem 0; border-bottom: 1px solid #bbb; overflow-wrap: anywhere; }
table { border-collapse: collapse; font-size: .85rem; width: 100%; } .failed { background: #f6d5da; } .skipped { background: #f4efd6; }
pre { white-space: pre-wrap; overflow-wrap: anywhere; margin: 0; } .sign td { border: 0; border-bottom: 1px solid #111; width: 70%; }
thead { display: table-header-group; } tr { break-inside: avoid; } @media print { body { font-size: 9.5pt; padding: 0; } }"""


def page_of(facts, rows):
    verdict = "failed" if any(row.verdict == "failed" for row in rows) else "passed"
    told = "".join(f"<tr><th>{escape(name)}</th><td><pre>{escape(value)}</pre></td></tr>" for name, value in facts)
    cells = "".join(f'<tr class="{row.verdict}">' + "".join(f"<td>{escape(it)}</td>" for it in row) + "</tr>\n"
                    for row in sorted(rows, key=lambda row: ("failed", "skipped", "passed").index(row.verdict)))
    signed = "".join(f"<tr><th>{name}</th><td></td></tr>" for name in SIGNATURE)
    return (f'<!DOCTYPE html>\n<html lang="en"><head><meta charset="utf-8"><title>Qualification of Welungad</title><style>{STYLE}</style></head><body>\n'
            f"<h1>Qualification of Welungad: {verdict}</h1>\n<table>{told}</table>\n<h2>Comparisons: {counted(rows)}</h2>\n<table><thead><tr>"
            f"<th>Result</th><th>By</th><th>What</th><th>Found</th></tr></thead><tbody>\n{cells}</tbody></table>\n<p>{LIMITS}</p>\n"
            f'<table class="sign">{signed}</table>\n</body></html>\n')


def own_doors(place, room, extra):
    """Yields the doors of the installation, and rows for those that cannot be used."""
    if is_proved(place, place.program) and os.access(place.program, os.X_OK):
        yield ProgramDoor(place, room)
    else:
        yield Row("failed", "program", place.program, "it is missing, or not the one that was proved, so it is not started")
    if place.library is None or (place.kind == "checkout" and not os.path.isfile(place.library)):
        yield Row("skipped", "C library, in process", "all calls", "the library is not installed")
    elif not is_proved(place, place.library):
        yield Row("failed", "C library, in process", place.library, "it is missing, or not the one that was proved, so it is not called")
    else:
        try:
            door = LibraryDoor(place.library)
            extra["library"] = door.version
            yield door
        except (OSError, AttributeError) as error:
            yield Row("failed", "C library, in process", place.library, f"it cannot be called: {error}")


def qualify(place, further=(), facts=(), make_page=None):
    """Returns the facts and the comparisons. `further` are doors, `facts` what is known of them."""
    rows, extra = [*check_files(place)], dict(facts)
    with tempfile.TemporaryDirectory() as room:
        doors = [*own_doors(place, room, extra)]
        rows += [door for door in doors if isinstance(door, Row)]
        doors = [door for door in doors if not isinstance(door, Row)]
        for door in [*doors, *further]:
            rows += check_calls(place, door)
        first = next((door for door in [*doors, *further] if not isinstance(door, FolderDoor)), None)
        if first is None:
            rows.append(Row("failed", "closed_test.py", "all examples", "neither the program nor the library can be called"))
        else:
            rows += check_definitions(first, place, room)
        make_page = make_page or page_by_script(place)
        if first is None or make_page is None:
            rows.append(Row("skipped", "page", "the page of a decision", "there is nothing here that makes one"))
        else:
            rows += check_page(make_page, place, room)
    return about(place, extra), rows


def arguments(name):
    parser = argparse.ArgumentParser(prog=name, description=__doc__, formatter_class=argparse.RawDescriptionHelpFormatter)
    parser.add_argument("--out", default=".")
    parser.add_argument("--door", action="append", default=[])
    parser.add_argument("--calls")
    return parser.parse_args()


def main(name="welungad-qualify", further=(), facts=(), make_page=None):
    words, place, facts = arguments(name), Installation(), dict(facts)
    if words.calls:
        return write_calls(place, words.calls)
    doors = [*further, *(FolderDoor(*door.split("=", 1)) for door in words.door)]
    for door in doors:
        path = os.path.join(getattr(door, "folder", ""), "about")
        if isinstance(door, FolderDoor) and os.path.isfile(path):
            facts[door.name] = content(path).strip()
    facts, rows = qualify(place, doors, facts, make_page)
    text = text_of(facts, rows)
    try:
        os.makedirs(words.out, exist_ok=True)
        for file, written in (("qualification.txt", text), ("qualification.html", page_of(facts, rows))):
            with open(os.path.join(words.out, file), "w", encoding="utf-8") as out:
                out.write(written)
    except OSError as error:
        sys.exit(f"{name}: the report can't be written: {error}")
    sys.stdout.write(text)
    sys.exit(any(row.verdict == "failed" for row in rows))


if __name__ == "__main__":
    main()
