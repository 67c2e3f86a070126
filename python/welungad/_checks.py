"""What the checkers answer of a decision, for its page: the proved checker, and the reviewers' scripts, each of which is run as a
reviewer runs it. If one of them disagrees with the decision, there is no page."""
import os
import subprocess
import sys
import tempfile
from typing import List, NamedTuple, Optional, Tuple

from ._findings import Findings
from ._refusals import BadAnswer, Refused
from ._reviewer import script_path
from ._updates import Calls

MOST_CLOSED, SECONDS = 8, 120  # hypotheses of a decision that the page decides again by definition; the longest run of a script


class Answered(NamedTuple):
    """What a checker is, and what it answered. Its text is None if it was not run, or has no answer; then `why` says why."""

    checker: str
    text: Optional[str]
    why: str = ""


class Checks(NamedTuple):
    """The document of evidence, whether the proved call made it, whether make_evidence.py makes the same from the report, and what was
    answered. There is no document for a case with stages, or if none was made."""

    evidence: Optional[str]
    is_own: bool
    is_remade: bool
    answers: List[Answered]


def _run_script(name: str, words: List[str], room: str) -> Tuple[int, str]:
    """Runs a script without the user's own settings, and returns its status and its text. `TimeoutExpired`: it takes too long."""
    done = subprocess.run([sys.executable or "python3", "-B", "-E", "-s", script_path(name), *words], stdin=subprocess.DEVNULL, stdout=subprocess.PIPE,
                          stderr=subprocess.PIPE, cwd=room, timeout=SECONDS, check=False)
    return done.returncode, done.stdout.decode("latin-1")


def _answered(name: str, words: List[str], room: str) -> Tuple[Optional[int], Answered]:
    """Returns the status and the answer of a script; no status if it was not run."""
    try:
        status, text = _run_script(name, words, room)
    except subprocess.TimeoutExpired:
        return None, Answered(f"{name}.py", None, f"It was not run to its end, since it takes more than {SECONDS} seconds.")
    except OSError as error:
        return None, Answered(f"{name}.py", None, f"It was not run: {error.strerror or error}.")
    return status, Answered(f"{name}.py", text)


def _proved_answer(findings: Findings, calls: Calls, evidence: str) -> Answered:
    """Returns the answer of the proved checker, which has to be yes, unless it refuses the size of the evidence."""
    if calls.check is None:
        return Answered("welungad check", None, "It was not run.")
    status, found = calls.check(findings.canonical, evidence)
    text = found.decode("latin-1")
    if status in (4, 5) or (status == 3 and text.endswith(": number\n")):
        return Answered("welungad check", None, f"It refuses the size of the evidence: {text.strip()}.")
    if status:
        raise BadAnswer(f"check does not say yes to the evidence: {text.strip()}")
    return Answered("welungad check", text)


def _evidence_of(findings: Findings, room: str) -> Checks:
    """Returns the evidence, without answers. Where it is too wide for the proved call, a script makes it, if that is not too slow."""
    own = None if findings.evidence is None or isinstance(findings.evidence, Refused) else findings.evidence.text
    try:
        status, made = _run_script("make_evidence", ["case.txt", "report.txt"], room)
    except (subprocess.TimeoutExpired, OSError):
        return Checks(own, own is not None, False, [])
    if status:
        raise BadAnswer("make_evidence.py makes no evidence for the report")
    return Checks(own or made, own is not None, own in (None, made), [])


def _checked_evidence(findings: Findings, calls: Calls, room: str) -> Checks:
    found = _evidence_of(findings, room)
    if found.evidence is None:
        return found
    with open(os.path.join(room, "evidence.txt"), "w", encoding="latin-1", newline="") as file:
        file.write(found.evidence)
    proved = _proved_answer(findings, calls, found.evidence)
    _, other = _answered("check_evidence", ["case.txt", "evidence.txt"], room)
    kept = [name for name in findings.names if name not in findings.steps]
    wanted = "\n".join(["yes", " ".join(["listed", *findings.order]), " ".join(["kept", *kept]), "end", ""])
    for answered in (proved, other):
        if answered.text not in (None, wanted):
            raise BadAnswer(f"{answered.checker} answers otherwise than the decision: {(answered.text or '').strip()[:80]}")
    return found._replace(answers=[proved, other])


def _closed_answer(findings: Findings, room: str) -> Answered:
    """Returns what the closed test decides by its definition, which has to be the decision."""
    status, answered = _answered("closed_test", ["case.txt", *([] if findings.is_staged else ["--adjusted"])], room)
    rejected = "\n" + " ".join(["rejected", *findings.rejected]) + "\n"
    if status is not None and (status or rejected not in (answered.text or "")):
        raise BadAnswer(f"closed_test.py decides otherwise: {(answered.text or '').strip()[:80]}")
    return answered


def checks_of(findings: Findings, calls: Calls) -> Checks:
    """Returns what the checkers answer. `BadAnswer`: one of them disagrees with the decision."""
    with tempfile.TemporaryDirectory(prefix="welungad-") as room:
        for name, text in (("case.txt", findings.canonical), ("report.txt", findings.report)):
            with open(os.path.join(room, name), "w", encoding="latin-1", newline="") as file:
                file.write(text)
        found = Checks(None, False, False, []) if findings.is_staged else _checked_evidence(findings, calls, room)
        closed = [_closed_answer(findings, room)] if len(findings.names) <= MOST_CLOSED else []
        return found._replace(answers=found.answers + closed)
