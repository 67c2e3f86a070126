#!/usr/bin/env python3
"""Lets `rt lib` and `rt run` use the libraries that `rt ci` has just passed in this checkout.

    bench/kept.py

`rt ci` proves each library, or takes over what an earlier `rt ci` on this machine proved from the same files over the same libraries.
Either is left in out/ without the stamp by which other commands of rt know a library, so these would prove it once more. This script
writes the stamps, with rt's own words for them, lowest first. Only .ci/run calls it, right after `rt ci`. It gives a stamp to a library
only if all of these hold:
- .ci/run has written .ci/out/proved in the same run, so the number of its process is that of this script's parent;
- the sources are committed, and are those that the file names;
- the library has the checksum that the file names; the file leaves out those that were in out/ before, which `rt ci` puts back;
- it has no stamp yet, and all libraries below it have been given theirs.
Else, and if the kit has other words, it gives none, and the commands take longer.
"""
import hashlib
import importlib.machinery
import importlib.util
import os
import shutil
import subprocess
import sys

TOP = os.path.dirname(os.path.dirname(os.path.realpath(__file__)))
NOTE = os.path.join(TOP, ".ci", "out", "proved")


class Unknown(Exception):
    """What was proved is not known, or is not what is here."""


def sources():
    """Returns what the sources are now, in the words of tools/stamps.sh."""
    script = 'top=$1 script=bench/kept.py && . "$top/tools/stamps.sh" && sources $gate_sources'
    done = subprocess.run(["sh", "-c", script, "sh", TOP], capture_output=True, text=True)
    if done.returncode:
        raise Unknown(done.stderr.strip())
    return done.stdout.strip()


def proved():
    """Returns the checksum of each library with which this run of .ci/run has passed, by the path of its file `format`."""
    try:
        with open(NOTE, encoding="utf-8") as file:
            run, built, *libraries = file.read().splitlines()
    except (OSError, ValueError):
        raise Unknown("there is no note of what was proved: .ci/run writes it right after rt ci") from None
    if run != f"run {os.getppid()}":
        raise Unknown("another run has proved them: only .ci/run calls this script")
    if built != f"built {sources()}":
        raise Unknown("the sources are not those that were proved")
    return {path: checksum for checksum, path in (line.split("  ", 1) for line in libraries)}


def is_proved(crate, checksums):
    """Whether the library of a crate is the one that was proved, and no other command of rt has made it."""
    path = f"crates/{crate.name}/out/rlib/{crate.name}.rlib/format"
    if not os.path.isfile(path) or os.path.exists(stamp_path(crate)):
        return False
    with open(path, "rb") as file:
        return checksums.get(path) == hashlib.sha256(file.read()).hexdigest()


def words_of_rt():
    """Returns the module of the command rt."""
    path = os.path.realpath(shutil.which("rt"))
    sys.path.insert(0, os.path.dirname(path))
    loader = importlib.machinery.SourceFileLoader("rt_words", path)
    module = importlib.util.module_from_spec(importlib.util.spec_from_loader("rt_words", loader))
    loader.exec_module(module)
    return module


def stamp_path(crate):
    return f"{crate.folder}/out/rlib/stamp"


def stamp(crate, checksums, done):
    """Writes the stamp of a proved library if those below it have been given theirs. Returns whether it has been given one."""
    if crate.name not in done:
        below = [stamp(it, checksums, done) for it in crate.below()]
        is_known = all(below) and not crate.is_program and is_proved(crate, checksums)
        if is_known:
            with open(stamp_path(crate), "x", encoding="utf-8") as file:
                file.write(crate.stamp())
        done[crate.name] = is_known and crate.is_built()
    return done[crate.name]


def main():
    sys.dont_write_bytecode = True
    os.chdir(TOP)
    checksums = proved()
    rt = words_of_rt()
    rt.Crate.allowed = rt.handles_of(TOP)
    done = {}
    for crate in rt.rtlib.crates_below(TOP):
        stamp(crate, checksums, done)
    print(f"{sum(done.values())} libraries of rt ci are ready for rt lib and rt run")


try:
    main()
except Exception as why:  # another kit may fail in any way
    print(f"the libraries of rt ci are not used again: {why}")
