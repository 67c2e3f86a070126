"""A run of the program. Studies alone need it, since a file of looks is opened by the program."""
import subprocess
from typing import Optional, Sequence, Tuple

from ._library import program_path
from ._refusals import BadAnswer

_STATUSES = range(11)


def run_at(program: str, words: Sequence[str], case: bytes, folder: Optional[str] = None) -> Tuple[int, bytes]:
    """Runs a program with words and what it reads from standard input, in a folder if one is named, and returns its status and what it
    prints.

    `OSError`: it cannot be started. `BadAnswer`: it did not end with one of its statuses. The number of a signal is none.
    """
    try:
        done = subprocess.run([program, *words], input=case, stdout=subprocess.PIPE, stderr=subprocess.PIPE, cwd=folder, check=False)
    except OSError as error:
        raise OSError(f"{program} cannot be started: {error.strerror or error}") from error
    if done.returncode not in _STATUSES:
        how = f"was ended by signal {-done.returncode}" if done.returncode < 0 else f"ended with status {done.returncode}"
        said = done.stderr.decode("utf-8", "replace").strip().split("\n")[-1]
        raise BadAnswer(f"{program} {how}, which is no answer" + (f": {said}" if said else ""))
    return done.returncode, done.stdout


def run_program(words: Sequence[str], case: bytes, folder: Optional[str] = None) -> Tuple[int, bytes]:
    """Runs the program that is found, as `run_at` does. `OSError`: it is not found, or is not the one that was proved."""
    return run_at(program_path(), words, case, folder)
