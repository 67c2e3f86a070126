"""Where the library and the program are, and whether they are those that were proved.

One rule holds for both. A stamp lies beside a file that was built, or in the package if the file came with its wheel; below the
prefix of an installation it is share/welungad/identity. It names the file with its SHA-256. A file without a stamp, or whose digest
is another one, is refused.
"""
import contextlib
import hashlib
import os
import shutil
import sys
import sysconfig
from typing import Iterator, List, Optional, Tuple

INTERFACE = 1
LIBRARY, PROGRAM = "libwelungad.so", "welungad"
PACKAGE = os.path.dirname(os.path.abspath(__file__))


# ---- where the package is


def checkout() -> Optional[str]:
    """Returns the top of the checkout that this package lies in, if it lies in one."""
    top = os.path.dirname(os.path.dirname(PACKAGE))
    return top if os.path.isfile(os.path.join(top, "c", "welungad.h")) and os.path.isdir(os.path.join(top, "crates")) else None


def prefixes() -> List[str]:
    """Returns the folders that Welungad may be installed below: the one that this package lies in, and Python's own."""
    above = os.path.dirname(PACKAGE)
    within = os.path.join("share", "welungad", "python")
    own = [above[: -len(within)]] if above.endswith(os.sep + within) else []
    return own + [sys.prefix]


def beside(*names: str) -> Optional[str]:
    """Returns the path of what came with this package: in its own folder after pip, else beside `python` in the checkout or prefix."""
    places = [os.path.join(PACKAGE, names[-1]), os.path.join(os.path.dirname(os.path.dirname(PACKAGE)), *names)]
    return next((place for place in places if os.path.exists(place)), None)


# ---- whether a file is the one that was proved


def _names_of(path: str) -> Iterator[str]:
    """Yields the names that a stamp may have for a file. It may name the library without its release."""
    for name in (os.path.basename(path), os.path.basename(os.path.realpath(path))):
        yield name
        if name.startswith(LIBRARY + "."):
            yield LIBRARY


def stamped(stamp: str, path: str) -> Optional[str]:
    """Returns the SHA-256 that a stamp has for a file, or nothing if it has none."""
    names = {*_names_of(path)}
    with open(stamp, encoding="utf-8", errors="replace") as file:
        lines = [line.split() for line in file]
    return next((line[2] for line in lines if len(line) == 3 and line[0] == "sha256" and line[1] in names), None)


def digest_of(path: str) -> str:
    """Returns the SHA-256 of a file."""
    with open(path, "rb") as file:
        return hashlib.sha256(file.read()).hexdigest()


def _stamps_of(path: str) -> Iterator[str]:
    """Yields the paths at which the stamp of a file may be: beside it, below its prefix, and in this package."""
    for folder in dict.fromkeys(os.path.dirname(place) for place in (os.path.abspath(path), os.path.realpath(path))):
        yield os.path.join(folder, "stamp")
        yield os.path.join(os.path.dirname(folder), "share", "welungad", "identity")
    own = os.path.join(PACKAGE, "stamp")
    if os.path.isfile(own) and stamped(own, path) is not None:
        yield own


def stamp_of(path: str) -> str:
    """Returns the path of the stamp of a file. `OSError`: there is none, so that nothing says what the file is."""
    found = next(filter(os.path.isfile, _stamps_of(path)), None)
    if found is None:
        raise OSError(f"{path} has no stamp beside it, and no installation names it: its SHA-256 is {digest_of(path)}, and nothing says that it is "
                      "the one that was proved. Build it by c/build.sh or ./welungad help, or install it by ./install PREFIX")
    return found


def hold(path: str) -> None:
    """Refuses a file that is not the one that was proved. `OSError`: no stamp names it, or the one that does has another digest."""
    stamp = stamp_of(path)
    wanted = stamped(stamp, path)
    if wanted is None:
        raise OSError(f"{stamp} has no line sha256 for {os.path.basename(path)}")
    found = digest_of(path)
    if found != wanted.lower():
        raise OSError(f"{path} is not the file that was built: its SHA-256 is {found}, and {stamp} has {wanted}")


# ---- the library


def library_places() -> List[str]:
    """Returns the paths at which the library may be, in the order in which they are tried; then comes the system's loader."""
    named = os.environ.get("WELUNGAD_LIBRARY")
    if named:
        return [os.path.abspath(named)]
    top = checkout()
    built = [os.path.join(top, "c", "out", LIBRARY)] if top else []
    return [os.path.join(PACKAGE, LIBRARY), *built, *(os.path.join(prefix, "lib", LIBRARY) for prefix in prefixes())]


def library_path() -> Optional[str]:
    """Returns the path of the library, or nothing if only the system's loader may know it. `OSError`: it is not the one that was proved,
    or WELUNGAD_LIBRARY names none."""
    tried = library_places()
    found = next(filter(os.path.exists, tried), None)
    if found is None and os.environ.get("WELUNGAD_LIBRARY"):
        raise OSError(f"WELUNGAD_LIBRARY names {tried[0]}, and there is no such file")
    if found is not None:
        hold(found)
    return found


def loaded_path() -> str:
    """Returns the path of the library that the system's loader has found. `OSError`: it is not known, or is not the one that was
    proved."""
    paths: List[str] = []
    with contextlib.suppress(OSError), open("/proc/self/maps", encoding="utf-8", errors="surrogateescape") as maps:
        paths = ["/" + line.rstrip("\n").partition("/")[2] for line in maps]
    found = next((path for path in paths if os.path.basename(path).startswith(LIBRARY)), None)
    if found is not None:
        hold(found)
        return found
    raise OSError(f"nothing says where the system's loader has found {LIBRARY}: let the environment variable WELUNGAD_LIBRARY name it")


# ---- the program


def _installed_programs() -> Iterator[str]:
    """Yields the paths at which pip may have put the program of the wheel: it has the list of the files beside the package."""
    folder = os.path.dirname(PACKAGE)
    for name in sorted(os.listdir(folder)):
        record = os.path.join(folder, name, "RECORD")
        if name.startswith("welungad-") and name.endswith(".dist-info") and os.path.isfile(record):
            with open(record, encoding="utf-8", errors="surrogateescape") as file:
                paths = [line.split(",")[0] for line in file]
            yield from (os.path.normpath(os.path.join(folder, path)) for path in paths if path.endswith(f"/{PROGRAM}"))
            yield os.path.join(folder, "bin", PROGRAM)


def program_places() -> List[str]:
    """Returns the paths at which the program may be, in the order in which they are tried; then comes the search path."""
    named = os.environ.get("WELUNGAD")
    if named:
        return [os.path.abspath(named)]
    top = checkout()
    built = [os.path.join(top, "crates", "welungad", "out", PROGRAM)] if top else []
    places = [*built, *_installed_programs(), *(os.path.join(prefix, "bin", PROGRAM) for prefix in prefixes())]
    return list(dict.fromkeys([*places, os.path.join(sysconfig.get_path("scripts"), PROGRAM)]))


def program_path() -> str:
    """Returns the path of the program. `OSError`: it is not found, or is not the one that was proved."""
    tried = program_places()
    found = next((path for path in tried if os.path.isfile(path) and os.access(path, os.X_OK)), None)
    if found is None and not os.environ.get("WELUNGAD"):
        found = shutil.which(PROGRAM)
        # it may be run in another folder
        found = found and os.path.abspath(found)
    if found is None:
        where = ", ".join(tried) + ("" if os.environ.get("WELUNGAD") else ", and those of the search path")
        raise OSError(f"the program welungad is not found. The places tried: {where}. Build it by ./welungad help, install Welungad by "
                      "./install PREFIX, or let the environment variable WELUNGAD name it")
    hold(found)
    return found


def about_program(path: str) -> List[Tuple[str, str]]:
    """Returns what a page says of the program: its SHA-256, and what its stamp says of its making."""
    with open(stamp_of(path), encoding="utf-8") as file:
        return [("SHA-256 digest of the program", digest_of(path)), ("What it was built from", file.read().strip())]
