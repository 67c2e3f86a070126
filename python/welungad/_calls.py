"""The calls of the C library: `run`, `readings`, `test_rows` and `update`."""
import contextlib
import ctypes
import functools
import threading
from array import array
from typing import AbstractSet, Any, Callable, Iterable, List, Mapping, NamedTuple, Optional, Sequence, Tuple, Union

from ._library import INTERFACE, LIBRARY, digest_of, library_path, library_places, loaded_path, stamp_of
from ._refusals import BadAnswer

DONE, NO, USAGE, MALFORMED, LIMIT, TOO_WIDE, NO_MEMORY, UNREADABLE_WORDS = 0, 1, 2, 3, 4, 5, 8, 10

Text = Union[str, bytes]

_ROOM = 7
_FIRST_ROOM = 65536


# ---- the library


def _load() -> Tuple[str, ctypes.CDLL]:
    """Loads the library, and returns its path with it. `OSError`: there is none, or it is not the one that was proved."""
    path = library_path()
    if path is not None:
        try:
            return path, ctypes.CDLL(path)
        except OSError as error:
            raise OSError(f"{path} cannot be loaded: {error}") from error
    found = None
    # by its soname first, since a system may lack the link that compilers take
    for name in (f"{LIBRARY}.{INTERFACE}", LIBRARY):
        with contextlib.suppress(OSError):
            found = found or ctypes.CDLL(name)
    if found is None:
        raise OSError(f"{LIBRARY} is not found. The places tried: {', '.join(library_places())}, and those of the system's loader. Build it "
                      "by c/build.sh, install Welungad by ./install PREFIX, or let the environment variable WELUNGAD_LIBRARY name it")
    return loaded_path(), found


class Library(NamedTuple):
    """The library: where it is, its release, and its calls. An older one lacks the last three."""

    path: str
    release: str
    run: Callable[..., int]
    read: Optional[Callable[..., int]]
    test_rows: Optional[Callable[..., int]]
    update: Optional[Callable[..., int]]


_SLICE = (ctypes.c_void_p, ctypes.c_size_t)


def _call(library: ctypes.CDLL, name: str, *arguments: Any, result: Any = ctypes.c_uint8) -> Optional[Callable[..., Any]]:
    """Returns a call of the library, or nothing if the library lacks it."""
    if not hasattr(library, name):
        return None
    call = getattr(library, name)
    call.argtypes, call.restype = list(arguments), result
    return call  # type: ignore[no-any-return]


@functools.lru_cache(maxsize=None)
def _library() -> Library:
    """Loads the library and returns its calls. `OSError`: there is none, it is not the one that was proved, or has another interface."""
    path, library = _load()
    number = _call(library, "welungad_interface", result=ctypes.c_uint32)
    text = (ctypes.c_char_p, ctypes.c_size_t)
    answer = (*_SLICE, ctypes.POINTER(ctypes.c_size_t))
    call = _call(library, "welungad_run", *text * 3, *answer)
    if number is None or call is None:
        raise OSError(f"{path} is not Welungad's library: it has not its calls")
    if number() != INTERFACE:
        raise OSError(f"{path} has interface {number()}, and this package needs {INTERFACE}")
    release = _call(library, "welungad_version", result=ctypes.c_char_p)
    return Library(path, release().decode("ascii", "replace") if release else "", call, _call(library, "welungad_read", *_SLICE * 2),
                   _call(library, "welungad_test_rows", *text, *_SLICE * 3), _call(library, "welungad_update", *text, *_SLICE, *answer))


def has_library() -> bool:
    """Whether there is a library. `OSError`: there is one, and it is not the one that was proved."""
    if library_path() is not None:
        return True
    with contextlib.suppress(OSError):
        return bool(_library())
    return False


def about_library() -> List[Tuple[str, str]]:
    """Returns what a page says of the library: its release, its SHA-256, and what its stamp says of its making."""
    library = _library()
    said = [("Release of the C library", library.release)] if library.release else []
    with open(stamp_of(library.path), encoding="utf-8") as file:
        return [*said, ("SHA-256 digest of the C library", digest_of(library.path)), ("What it was built from", file.read().strip())]


# ---- the calls

_rooms = threading.local()


def kind_of(value: object) -> str:
    """Returns what a message calls the type of a value."""
    return "None" if value is None else type(value).__name__


def bytes_of(text: Text, argument: str) -> bytes:
    """Returns the bytes of a text. `TypeError`: it is not a text. `ValueError`: it has half a character. The messages name the argument."""
    if isinstance(text, str):
        try:
            return text.encode("utf-8", "surrogateescape")
        except UnicodeEncodeError as error:
            raise ValueError(f"{argument} has {text[error.start]!r}, which is half a character") from None
    if isinstance(text, (bytes, bytearray, memoryview)):
        return bytes(text)
    raise TypeError(f"{argument} is a text, as str or bytes, and not of type {kind_of(text)}")


def _joined(words: Iterable[Text]) -> bytes:
    """Returns the words, each ended by a byte 0."""
    if isinstance(words, (str, bytes, bytearray, memoryview, AbstractSet, Mapping)):
        raise TypeError("words are a list of texts, one for each word, in their order")
    try:
        listed = list(words)
    except TypeError:
        raise TypeError(f"words are a list of texts, and not of type {kind_of(words)}") from None
    pieces = [bytes_of(word, f"word {number}") for number, word in enumerate(listed, 1)]
    for number, piece in enumerate(pieces, 1):
        if b"\0" in piece:
            raise ValueError(f"word {number} holds a byte 0")
    return b"".join(piece + b"\0" for piece in pieces)


def run(words: Iterable[Text], case: Text = b"", proof: Text = b"") -> Tuple[int, bytes]:
    """Runs the program's command `words` and returns its status and the text that the program prints.

    `case` holds what the program reads from standard input, and `proof` what it reads from the file of `check FILE`. FILE is
    not opened. The status is UNREADABLE_WORDS, with no text, if a word is not UTF-8.

    Calls from several threads run side by side. A call that has begun cannot be stopped.

    `TypeError`: a word, the case or the proof is not a text.
    `ValueError`: a word holds a byte 0, or a text holds half a character.
    `OSError`: the library is not found, is not the one that was built, or has another interface.
    """
    joined, case, proof = _joined(words), bytes_of(case, "case"), bytes_of(proof, "proof")
    return _answer(_library().run, joined, len(joined), case, len(case), proof, len(proof))


def _answer(call: Callable[..., int], *given: Any) -> Tuple[int, bytes]:
    """Makes a call that puts a text, with room enough for it, and returns its status and the text."""
    needed = ctypes.c_size_t()
    # The room is taken out of its place during the call, since a signal's handler may call in the same thread.
    room = _rooms.__dict__.pop("room", None) or ctypes.create_string_buffer(_FIRST_ROOM)
    out = room
    while True:
        status = call(*given, out, len(out), ctypes.byref(needed))
        if status != _ROOM:
            break
        if needed.value <= len(out):
            raise BadAnswer(f"the library asks for {needed.value} bytes for its text, and had {len(out)}")
        out = ctypes.create_string_buffer(needed.value)
    if needed.value > len(out):
        raise BadAnswer(f"the library gives {len(out)} of {needed.value} bytes of its text, which is no whole answer")
    text = ctypes.string_at(out, needed.value)
    _rooms.room = room
    return status, text


def update(case: Text, positions: Sequence[int]) -> Optional[Tuple[int, bytes]]:
    """Returns the status of the call that updates a graph, and its text: the graph of a case after the removal of the hypotheses at
    some positions, from 0, in this order. Returns nothing if the library is an older one."""
    call, text = _library().update, bytes_of(case, "case")
    if call is None:
        return None
    removed = array("Q", positions)
    return _answer(call, text, len(text), removed.buffer_info()[0], len(removed))


def readings(doubles: Iterable[float]) -> List[Tuple[int, int]]:
    """Returns the numerator and the denominator of the fraction that the library reads each double as. A double without a reading has the
    denominator 0. `OSError`: there is no library, or an older one, which reads no doubles."""
    library = _library()
    if library.read is None:
        raise OSError(f"{library.path} is an older library, which reads no doubles: give fractions, decimals or texts, or install a later one")
    given = array("d", doubles)
    words = array("Q", bytes(32 * len(given)))
    status = library.read(given.buffer_info()[0], len(given), words.buffer_info()[0], len(words))
    if status:
        raise BadAnswer(f"the call that reads doubles ended with status {status}")
    low, high = words[0::2], words[1::2]
    parts = [one + (more << 64) for one, more in zip(low, high)]
    return list(zip(parts[0::2], parts[1::2]))


def has_rows() -> bool:
    """Whether the library decides many rows of doubles in one call; an older one does not."""
    return _library().test_rows is not None


def test_rows(case: Text, doubles: Iterable[float], rows: int) -> Tuple[int, bytes, bytes]:
    """Decides a case with each of several rows of p-values, which are doubles, row by row. It may have p-values of its own.

    Returns the status of the call; a byte for each p-value, which is 1 if its hypothesis is rejected in its row; and the status of
    each row. If the status of the call is not 0, no row is decided."""
    call, text, given = _library().test_rows, bytes_of(case, "case"), array("d", doubles)
    if call is None:
        raise BadAnswer("the library is an older one, which decides no rows")
    marks, statuses = ctypes.create_string_buffer(max(1, len(given))), ctypes.create_string_buffer(max(1, rows))
    status = call(text, len(text), given.buffer_info()[0], len(given), marks, len(given), statuses, rows)
    return status, marks.raw[: len(given)], statuses.raw[:rows]
