"""Tests an installation of this package: `python3 -m welungad.qualify [--out FOLDER]`.

It runs the script qualify.py, which compares the installed files with their digests, the examples with their page, and the decisions on
them with the checks by definition. This package is a further way to each call. The script writes a report as text and as a page, and
ends with status 0 only if no comparison failed.
"""
import importlib.metadata
from typing import Any, Callable, Dict, List, Optional, Sequence, Tuple

from . import __version__
from ._calls import about_library, run
from ._commands import bounds, simes, stages, test, weights
from ._files import write_whole
from ._library import PACKAGE
from ._page import document, library_calls
from ._refusals import BadAnswer, Refused
from ._reviewer import loaded

_READ: Dict[str, Callable[..., Any]] = {"bounds": bounds, "simes": simes, "stages": stages, "test": test, "weights": weights}


class Door:
    """This package as a way to the proved calls: what it reads as results is answered by the report of the result."""

    name = "Python"

    def run(self, words: Sequence[str], case: bytes, proof: Optional[bytes] = None) -> Tuple[int, bytes]:
        """Returns the status and the text of a call."""
        read = _READ.get(words[0])
        if read is None:
            return run(list(words), case, proof or b"")
        options = {name.lstrip("-"): value for name, value in zip(words[1::2], words[2::2])}
        try:
            return 0, read(case, **options).report.encode()
        except Refused as refused:
            return refused.status, f"{refused.line}\n".encode()


def _packages() -> str:
    """Returns the releases of this package and of those that users have beside it."""
    found = [f"welungad {__version__} in {PACKAGE}"]
    for name in ("numpy", "pandas", "polars"):
        try:
            found.append(f"{name} {importlib.metadata.version(name)}")
        except importlib.metadata.PackageNotFoundError:
            continue
    return ", ".join(found)


def _make_page(case: str, page: str) -> str:
    """Writes the page of a case by the library. Returns why there is none, or nothing."""
    with open(case, "rb") as file:
        given = file.read()
    try:
        write_whole(document(given, library_calls(), file=case, program=about_library())[1], page)
    except (OSError, ValueError, BadAnswer) as error:
        return str(error)
    return ""


def main() -> None:
    """Runs the script with this package as a further way."""
    doors: List[Door] = [Door()]
    loaded("qualify").main("python3 -m welungad.qualify", doors, {"Python packages": _packages()}, _make_page)


if __name__ == "__main__":
    main()
