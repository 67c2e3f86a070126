"""Studies: a staged trial whose looks are kept in a file, from run to run. The file does not know its case, so the canonical text of
the case is kept beside it, and another case is refused."""
import contextlib
import os
import shutil
import tempfile
from fractions import Fraction
from functools import partial
from typing import Any, Iterator, List, NamedTuple, Optional, Sequence, Tuple, Union

from ._calls import Text, bytes_of, kind_of
from ._case import Canonical, fraction, read_canonical, whole_number
from ._files import content_of, write_new, write_whole
from ._hypotheses import hold_labels
from ._numbers import Given, value_of
from ._program import run_program
from ._reports import Report, read_whole, settled, take_answer
from ._results import Look, RefusedLook, Shown
from ._staged import Arriving, looks_of, stage_keys

_REASONS = ("stage", "known", "range")

Reply = Union[Look, RefusedLook]


_WHY = {"stage": "its stage does not exist", "known": "the hypothesis has a p-value at this stage already", "range": "its p-value is not from 0 to 1"}


class RefusedLooks(ValueError):
    """A study does not take some looks, and so took none of the call. `replies` has what it would reply to each look, in their order."""

    def __init__(self, message: str, replies: Tuple[Reply, ...]):
        super().__init__(message, replies)
        self.replies = replies

    def __str__(self) -> str:
        return str(self.args[0])


# ---- files


def _is_utf8(path: str) -> bool:
    """Whether the bytes of a path are UTF-8, as each word of the program has to be."""
    try:
        os.fsencode(path).decode("utf-8")
    except UnicodeError:
        return False
    return True


@contextlib.contextmanager
def _file_of(text: str) -> Iterator[str]:
    """Yields the path of a file with this text, for as long as it is needed."""
    with tempfile.TemporaryDirectory(prefix="welungad-") as room:
        path = os.path.join(room, "commands")
        with open(path, "w", encoding="ascii") as file:
            file.write(text)
        yield path


# ---- replies


def _read_look(report: Report, asked: Arriving, number: int) -> Reply:
    """Reads the reply to a look, which has to be the one that was requested."""
    if report.is_at("refused"):
        place, reason = report.take("refused")
        report.require(place == f"{number}:" and reason in _REASONS, f"it does not say why command {number} is refused")
        return RefusedLook(asked.label, asked.stage, reason)
    name, stage, p = report.take("look")
    same = (report.label(name), whole_number(stage), fraction(p)) == (asked.label, asked.stage, value_of(asked.p))
    report.require(same, f"its look {name} {stage} {p} is not the one that was requested")
    return Look(asked.label, asked.stage, fraction(p), report.take_all("reject", partial(settled, report)))


def _read_shown(report: Report) -> Shown:
    words = report.take("show")
    report.require(len(words) >= 3 and words[0] == "looks" and words[2] == "rejected", "its line show cannot be read")
    return Shown(whole_number(words[1]), report.ascending(words[3:]))


class _Replies(NamedTuple):
    """What a run replies: to each look, and to `show` after them."""

    looks: Tuple[Reply, ...]
    shown: Shown


def _read_study(report: Report, alpha: Fraction, asked: Sequence[Arriving]) -> _Replies:
    """Reads the report of a run of the looks that were requested, and of `show` after them."""
    (level,) = report.take("alpha")
    report.require(fraction(level) == alpha, f"its level is {level}")
    (records,) = report.take("records")
    replies = tuple(_read_look(report, look, number) for number, look in enumerate(asked, 1))
    shown = _read_shown(report)
    taken = sum(map(bool, replies))
    report.require(shown.looks == whole_number(records) + taken, f"it has {shown.looks} looks, of which it took {taken} and had {records}")
    return _Replies(replies, shown)


class Study:
    """A staged trial whose looks are kept in a file, from run to run.

    `case` is a staged case without lines `arrive`, in the form `form`. `store` is the path of the file of looks. It is made at the
    first look, and with it STORE.case, the canonical text of the case, and STORE.kept, how many looks are kept. A file of looks has
    positions in place of names, so it is opened for the case that it was made for and for no other. `labels` are the user's labels of
    the hypotheses, in their order; they are kept in STORE.labels if they are not the names of the case. `stages` are labels of the
    stages, from the first to the last, by which looks may name them. `Graph.study` makes the case.

    Every call runs the program, which the environment variable WELUNGAD names; else it is that of the checkout or the installation
    that this package lies in or was installed from, or the one on the search path.

    `TypeError`: the case is not a text, or the store not a path. `ValueError`: the file was made for another case or other labels, it
    is not said for which, or it is lost or has fewer looks than were kept in it. `Refused`: the case, a look or the file is refused.
    `BadAnswer`: what answered is not the program, or did not end by itself; the looks that it had taken are kept. `OSError`: the program
    is not found, or a file beside the store cannot be written.
    """

    def __init__(self, case: Text, store: Union[str, "os.PathLike[str]"], form: str = "text", labels: Optional[Sequence[str]] = None,
                 stages: Any = None):
        given = bytes_of(case, "case")
        if not isinstance(form, str):
            raise TypeError(f"form is a text, and not of type {kind_of(form)}")
        path = os.fspath(store) if isinstance(store, os.PathLike) else store
        if not isinstance(path, str):
            raise TypeError(f"store is the path of a file, and not of type {kind_of(store)}")
        if path in ("", ":memory:") or path.startswith("file:") or "\0" in path:
            raise ValueError(f"store is the path of a file, and not {path!r}")
        if os.path.isdir(path):
            raise ValueError(f"store is the path of a file, and {path} is a folder")
        if not _is_utf8(path):
            raise ValueError(f"store is the path of a file in UTF-8, and not {path!r}")
        # a later call from another folder is about the same file
        self._given, self._folder = path, None if os.path.isabs(path) else os.getcwd()
        self.store = os.path.join(self._folder or "", path)
        self.case = self._canon(given, form)
        self._read: Canonical = read_canonical(self.case)
        self._labels = self._read.names if labels is None else hold_labels(labels, "labels")
        if len(self._labels) != len(self._read.names):
            raise ValueError(f"labels are {len(self._labels)}, and there are {len(self._read.names)} hypotheses")
        self._stages = stage_keys(stages)
        self._answer([], None)
        self._hold()

    @property
    def names(self) -> Tuple[str, ...]:
        """The labels of the hypotheses, in their order."""
        return self._labels

    def __repr__(self) -> str:
        return f"<Study of {', '.join(self.names)} in {self.store!r}>"

    def look(self, name: str, stage: int, p: Given, refused: str = "raise") -> Reply:
        """Takes a look: the p-value of a hypothesis at a stage, from 1. Returns what it rejects.

        `RefusedLooks`: the study does not take it; with `refused="keep"`, returns why as a `RefusedLook` instead."""
        (reply,) = self.looks([(name, stage, p)], refused)
        return reply

    def looks(self, looks: Any, refused: str = "raise") -> Tuple[Reply, ...]:
        """Takes looks in their order, in one run of the program. Returns for each what it rejects.

        `looks` are triples of a label, a stage from 1 and a p-value, or a frame with the columns hypothesis, stage and p.

        `RefusedLooks`: the study does not take some of them, and so takes none; with `refused="keep"`, takes the others and returns why
        as a `RefusedLook` instead. If the run fails part way, the looks before are kept; `show` says how many there are."""
        if refused not in ("raise", "keep"):
            raise ValueError(f"refused is 'raise' or 'keep', and not {refused!r}")
        asked = looks_of(looks, self._labels, self._stages)
        for number, it in enumerate(asked, 1):
            if it.stage >= 10**9:
                raise ValueError(f"the stage of look {number} is {it.stage}, and there are at most 12 stages")
        self._claim()
        tried = self._tried(asked)
        untaken = [(number, it) for number, it in enumerate(tried.looks, 1) if isinstance(it, RefusedLook)]
        if untaken and refused == "raise":
            said = "; ".join(f"look {number}, {it.name!r} at stage {it.stage}, is not taken: {_WHY[it.reason]}" for number, it in untaken)
            raise RefusedLooks(f"{said}. None of this call is taken; with refused='keep' the others are", tried.looks)
        return self._run(asked).looks

    def show(self) -> Shown:
        """Returns how many looks have been taken, and what is rejected."""
        self._claim()
        return self._run([]).shown

    # ---- runs

    def _canon(self, given: bytes, form: str) -> str:
        words = ["canon"] if form == "text" else ["canon", "--form", form]
        return take_answer("canon", *run_program(words, given))

    def _run(self, asked: Sequence[Arriving]) -> _Replies:
        """Runs the program on looks and on `show` after them, with the file of looks, and keeps how many it has then."""
        before, replies = self._known_count(), self._answer(asked, self._given)
        self._hold_count(replies.shown.looks, before)
        if replies.shown.looks != before:
            write_whole(f"{replies.shown.looks}\n", self._beside("kept"))
        return replies

    def _tried(self, asked: Sequence[Arriving]) -> _Replies:
        """Returns what the program replies to looks with a copy of the file of looks, which itself stays as it is."""
        with tempfile.TemporaryDirectory(prefix="welungad-") as room:
            copy = os.path.join(room, "looks")
            for end in ("", "-wal"):
                with contextlib.suppress(FileNotFoundError):
                    shutil.copyfile(self.store + end, copy + end)
            replies = self._answer(asked, copy)
        self._hold_count(replies.shown.looks - sum(map(bool, replies.looks)), self._known_count())
        return replies

    def _answer(self, asked: Sequence[Arriving], store: Optional[str]) -> _Replies:
        """Runs the program on looks and on `show` after them, with a file of looks or with none."""
        names = dict(zip(self._labels, self._read.names))
        commands = "".join(f"look {names[it.label]} {it.stage} {it.p}\n" for it in asked) + "show\n"
        with _file_of(commands) as path:
            words = ["study", path, *([] if store is None else [f"--store={store}"])]
            text = take_answer("study", *run_program(words, self.case.encode("ascii"), None if store is None else self._folder))
        labels = dict(zip(self._read.names, self._labels))
        return read_whole("study", text, labels, partial(_read_study, alpha=self._read.alpha, asked=asked))

    # ---- what is kept beside the file

    def _beside(self, end: str) -> str:
        return f"{self.store}.{end}"

    @property
    def _label_bytes(self) -> Optional[bytes]:
        """The labels as a file has them, each ended by a byte 0; nothing if they are the names of the case."""
        if self._labels == self._read.names:
            return None
        return b"".join(label.encode("utf-8", "surrogateescape") + b"\0" for label in self._labels)

    def _claim(self) -> None:
        """Writes what is kept beside the file of looks if there is none, and refuses another case."""
        if not os.path.exists(self._beside("case")):
            self._hold()
            write_new(self._beside("kept"), b"0\n")
            if self._label_bytes is not None:
                write_new(self._beside("labels"), self._label_bytes)
            write_new(self._beside("case"), self.case.encode("ascii"))
        self._hold()

    def _has_looks(self) -> bool:
        return os.path.exists(self.store) and os.path.getsize(self.store) > 0

    def _hold(self) -> None:
        """Refuses a file of looks that was made for another case or other labels, of which it is not known for which, or that is lost."""
        try:
            found = content_of(self._beside("case")).decode("ascii", "replace")
        except FileNotFoundError:
            if self._has_looks():
                raise ValueError(f"{self.store} holds looks, and there is no {self._beside('case')}, which says for which case: write the "
                                 "canonical text of its case there") from None
            return
        if found != self.case:
            raise ValueError(self._other(found))
        labels = content_of(self._beside("labels")) if os.path.exists(self._beside("labels")) else None
        if labels != self._label_bytes:
            theirs = (labels or b"").decode("utf-8", "replace").split("\0")[:-1] or list(self._read.names)
            raise ValueError(f"{self.store} was made for the hypotheses {', '.join(map(repr, theirs))}")
        if not self._has_looks() and self._known_count() != 0:
            raise ValueError(f"{self.store} is lost: it is not there, and {self._beside('case')} is, for which it was made. Put the file back, or "
                             f"remove the files {self.store}.* to begin anew")

    def _known_count(self) -> Optional[int]:
        """Returns how many looks were kept; nothing if an older release has not written it. `ValueError`: the file has no such number."""
        try:
            text = content_of(self._beside("kept")).decode("ascii", "replace").strip()
        except FileNotFoundError:
            return None
        if not text.isdigit():
            raise ValueError(f"{self._beside('kept')} has {text[:40]!r}, and not how many looks were kept")
        return int(text)

    def _hold_count(self, found: int, before: Optional[int]) -> None:
        """Refuses a file of looks that has fewer looks than were kept in it."""
        if before is not None and found < before:
            raise ValueError(f"{self.store} has {found} looks, and {before} were kept in it: it is an older copy")

    def _other(self, found: str) -> str:
        """Returns how the case beside the file differs."""
        theirs, ours = found.split("\n"), self.case.split("\n")
        names = [word for line in theirs if line.startswith("hypotheses ") for word in line.split(" ")[1:]]
        if tuple(names) != self._read.names:
            return f"{self.store} was made for a case with hypotheses {' '.join(names) or '(none can be read)'}"
        at = next((at for at, (one, other) in enumerate(zip(theirs, ours)) if one != other), min(len(theirs), len(ours)))
        line = theirs[at] if at < len(theirs) else ""
        return f"{self.store} was made for another case: line {at + 1} of {self._beside('case')} is {line!r}, and not {''.join(ours[at:at + 1])!r}"
