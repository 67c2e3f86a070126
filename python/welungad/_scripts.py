"""The command lines of tools/report.py and tools/draw.py, and of `python -m welungad`."""
import argparse
import os
import signal
import sys
import tempfile
from typing import List, Optional, Sequence, Tuple

from ._calls import about_library, has_library
from ._case import Canonical, read_canonical
from ._commands import PRIORITIES
from ._files import content_of, write_out, write_whole
from ._findings import words_of
from ._library import about_program, hold, program_path
from ._page import Facts, document, library_calls
from ._picture import Drawn, picture_of
from ._program import run_at
from ._refusals import BadAnswer, Refused
from ._reports import read_decision, read_whole, take_answer
from ._updates import Calls

FORMS = ("text", "csv", "json")

REPORT = """Writes a decision as one page of HTML, for people who read it rather than compute it.

CASE is a file in a form of docs/FORMATS.md, with single p-values or with stages. The page has no scripts and fetches nothing. What
it says of the decision is what proved calls print, which is read strictly: if a text is not the whole report of its command on this
case, the script ends with status 1 and a line on standard error, and there is no page. A case that is refused has a page too, with
the cause and the cure of the line; the status is then that of `welungad`.

The C library answers if there is one, and else the program, or the one that --program names. One that is not the proved one by its
stamp or identity is refused."""

DRAW = """Draws the graph of a case as SVG.

CASE is a file in a form of docs/FORMATS.md; its stages are left out. REPORT is a file with what `welungad test` prints for the case:
what it rejects is then filled, and has the number of its step. A circle has the name of a hypothesis, its weight in each component
and its p-value. An arrow has its edge. Each component has its colour. The legend has the level and the shares.

A REPORT that is not what `welungad test` prints for CASE, by one of the priorities, is an error with status 1, and nothing is drawn. A
case that is refused ends with the line and the status of `welungad`."""


def _parser(usage: str, description: str) -> argparse.ArgumentParser:
    parser = argparse.ArgumentParser(usage=usage, description=description, formatter_class=argparse.RawDescriptionHelpFormatter)
    parser.add_argument("case")
    parser.add_argument("--form", choices=FORMS, default="text")
    parser.add_argument("--alpha")
    parser.add_argument("--program", help="the program that answers")
    return parser


def _calls(program: Optional[str]) -> Tuple[Calls, List[Tuple[str, str]]]:
    """Returns the calls of the program that is named, else those of the library if there is one, else those of the program that is found;
    and what a page says of it. `OSError`: there is none, or it is not the proved one."""
    if program is None and has_library():
        return library_calls(), about_library()
    # a bare name is that of a file here, as its digest is, and none on the search path
    path = program_path() if program is None else os.path.abspath(program)
    hold(path)

    def check(case: str, evidence: str) -> Tuple[int, bytes]:
        with tempfile.TemporaryDirectory(prefix="welungad-") as room:
            write_whole(evidence, os.path.join(room, "evidence.txt"))
            return run_at(path, ["check", "evidence.txt"], case.encode(), room)

    return Calls(lambda words, case: run_at(path, words, case.encode("utf-8", "surrogateescape")), check=check), about_program(path)


# ---- the page


def _labels_in(content: bytes) -> List[str]:
    """Returns the labels in a file that has each of them with a byte 0 at its end."""
    labels = content.decode("utf-8", "replace").split("\0")
    if labels.pop():
        raise ValueError("labels: the last one has no byte 0 at its end")
    return labels


def report() -> None:
    """Runs tools/report.py."""
    parser = _parser("report.py CASE [--form text|csv|json] [--alpha N] [--program PATH] > REPORT.html", REPORT)
    parser.add_argument("--priority", choices=PRIORITIES, help="as for `welungad test`")
    parser.add_argument("--title", help="what stands above the page")
    parser.add_argument("--protocol", help="the protocol, as the page names it; left out, there is a line to fill in")
    parser.add_argument("--data-cut", help="likewise the data cut")
    parser.add_argument("--author", help="likewise the author")
    parser.add_argument("--labels", help="a file with the user's names of the hypotheses, in their order, each ended by a byte 0")
    parser.add_argument("--report", help="a file with a report of this decision: there is no page unless it is printed again")
    parser.add_argument("--out", help="where the page is written; the file has all of it, or stays as it was")
    words = parser.parse_args()
    try:
        calls, program = _calls(words.program)
        labels = None if words.labels is None else _labels_in(content_of(words.labels))
        given = None if words.report is None else content_of(words.report).decode("latin-1")
        status, text = document(content_of(words.case), calls, words.form, words.alpha, os.path.basename(words.case), labels, program,
                                words.priority, words.title, given, Facts(words.protocol, words.data_cut, words.author))
        if words.out is None:
            write_out(text)
        else:
            write_whole(text, words.out)
    except (OSError, ValueError, BadAnswer) as error:
        sys.exit(f"report.py: {error}")
    sys.exit(status)


# ---- the picture


def _steps_of(case: Canonical, calls: Calls, report_text: str) -> List[str]:
    """Returns the names that a report rejects, in their order. It has to be the report of `test` on this case, by one of the priorities."""
    names = dict(zip(case.names, case.names))
    for priority in PRIORITIES:
        printed = take_answer("test", *calls.run(["test", "--priority", priority], case.before))
        if printed == report_text:
            return [step.name for step in read_whole("test", printed, names, read_decision).steps]
    raise BadAnswer("the report is not what test prints for this case")


def draw() -> None:
    """Runs tools/draw.py."""
    if hasattr(signal, "SIGPIPE"):  # not every system has it
        signal.signal(signal.SIGPIPE, signal.SIG_DFL)  # a reader may end first
    parser = _parser("draw.py CASE [REPORT] [--form text|csv|json] [--alpha N] > PICTURE.svg", DRAW)
    parser.add_argument("report", nargs="?")
    words = parser.parse_args()
    try:
        calls, _ = _calls(words.program)
        given = content_of(words.case).decode("utf-8", "surrogateescape")
        case = read_canonical(take_answer("canon", *calls.run(["canon", *words_of(words.form, words.alpha)], given)))
        steps = None
        if words.report is not None:
            order = _steps_of(case, calls, content_of(words.report).decode("latin-1"))
            steps = {name: number for number, name in enumerate(order, 1)}
        write_out(picture_of(Drawn(case.names, case.alpha, case.p, case.components), steps))
    except Refused as refused:
        sys.stderr.write(f"{refused.line}\n")
        sys.exit(refused.status)
    except (OSError, ValueError, BadAnswer) as error:
        sys.exit(f"draw.py: {error}")


# ---- the program


def program(words: Sequence[str]) -> None:
    """Runs the program in place of this process. `OSError`: it is not found, or is not the proved one."""
    path = program_path()
    os.execv(path, [path, *words])
