"""Files: texts that are written as a whole or not at all."""
import contextlib
import os
import secrets
import shutil
from typing import Union


def write_whole(text: str, path: Union[str, "os.PathLike[str]"]) -> None:
    """Writes a file, which has all of the text or stays as it was. `OSError`: it cannot be written."""
    place = os.path.realpath(os.fspath(path))
    part = os.path.join(os.path.dirname(place), f".welungad-{secrets.token_hex(8)}")
    try:
        if os.path.exists(place) and not os.path.isfile(place):
            raise OSError("it is not a file")
        if os.path.exists(place) and not os.access(place, os.W_OK):
            raise OSError("it is read-only")
        with open(part, "xb") as file:
            file.write(text.encode("utf-8", "replace"))
        if os.path.exists(place):
            shutil.copymode(place, part)
        os.replace(part, place)
    except OSError as error:
        raise OSError(f"{os.fspath(path)} can't be written: {error.strerror or error}") from None
    finally:
        with contextlib.suppress(OSError):
            os.unlink(part)


def write_out(text: str) -> None:
    """Writes a text to standard output. `OSError`: it cannot be written."""
    try:
        with open(1, "wb", closefd=False) as out:
            out.write(text.encode("utf-8", "replace"))
    except OSError as error:
        raise OSError(f"standard output can't be written: {error.strerror or error}") from None


def write_new(path: str, text: bytes) -> None:
    """Writes a file that is not there, whole or not at all. A file that came to be there meanwhile stays as it is."""
    temporary = f"{path}.{os.getpid()}.{secrets.token_hex(4)}"
    try:
        with open(temporary, "xb") as file:
            file.write(text)
            file.flush()
            os.fsync(file.fileno())
        try:
            os.link(temporary, path)
        except OSError:
            # Not every file system has links. Only here the file is whole: on a full disk the part above fails.
            if not os.path.exists(path):
                os.rename(temporary, path)
    finally:
        with contextlib.suppress(FileNotFoundError):
            os.unlink(temporary)


def content_of(path: str) -> bytes:
    """Returns the bytes of a file. `OSError`: it cannot be read."""
    with open(path, "rb") as file:
        return file.read()
