#!/usr/bin/env python3
"""Prints where the check of a crate takes its time: by kind, by part of a proof, and function by function.

    bench/function_times.py CRATE [--newer FILE] [--lines N]

A check writes a file for each module into crates/CRATE/out/incremental as soon as the module is done. With one job, the time
between two files is what the second took. To measure a check from nothing, with nothing beside it:

    touch /tmp/begin
    (cd crates/CRATE && rm -rf out/incremental && rt check --jobs 1)
    bench/function_times.py CRATE --newer /tmp/begin

If another checkout on this machine has checked the crate, `rt check` begins with the modules that it kept. These are older than FILE
and are left out, so the times are then of the others alone. The seconds are those of the clock, so they are of use only for
comparisons within a run.

The parts of a function: `Code` and `Lts` are its code and its transitions, `Reads`, `Layout`, `Kinds` and `Named` what these rest
on, `Goals`, `Answers` and `Proof` what has to be proved and the search for it, `Tie`, `Met` and `Paired` what leads to the contract.
"""
import argparse
import collections
import pathlib
import signal

CRATES = pathlib.Path(__file__).resolve().parent.parent / "crates"
DERIVED = {"Debug": "derived Debug", **dict.fromkeys(("PartialEq", "Eq", "PartialOrd", "Ord"), "derived Eq, Ord")}
PARTS = set("""Code Lts Reads Layout Kinds Named Statement Symbol Given Invariants Goals Answers Proof Carried Met Pair Paired Tie
TheLink""".split())


def modules_of(crate, newer):
    """Returns the modules that were written after a time, in their order: when, and the name after that of the crate."""
    found, prefix = [], f"Rattle-{crate}-"
    for file in (CRATES / crate / "out" / "incremental").glob(f"*/{prefix}*.oantt"):
        written = file.stat().st_mtime_ns
        if written > newer:
            found.append((written, file.name.removeprefix(prefix).removesuffix(".oantt")))
    return sorted(found)


def split_module(crate, name):
    """Returns the kind of a module, the function that it belongs to, and its part of that function, if it belongs to one."""
    area, *path = name.split(".")
    if area == "specs":
        return "files of specs/ and contracts", None, None
    if (CRATES / crate / "proofs" / f"{'/'.join(path)}.antt").is_file() and path[-1] not in PARTS:
        return "files of lemmas in proofs/", None, None
    for place, word in enumerate(path):
        part = word.split("-")[0]
        if place > 0 and part in PARTS:
            function = ".".join(path[:place])
            return kind_of(function), function, part
    return "links and the rest", None, None


def kind_of(function):
    """Returns what sort of function it is."""
    if ".fn." in function or "+Fn" in function:
        return "closures, and functions passed as values"
    if "Destruct" in function:
        return "drop glue"
    names = function.split(".")
    if len(names) > 1:
        for trait, kind in DERIVED.items():
            if names[-2].endswith(trait) and names[-2] != trait:
                return kind
    return "functions"


def show(title, seconds, lines=None):
    print(f"\n{title}")
    for name, time in seconds.most_common(lines):
        print(f"{time:8.2f}  {name}")


def main():
    # `| head` ends the script without a word
    signal.signal(signal.SIGPIPE, signal.SIG_DFL)
    options = argparse.ArgumentParser(description=__doc__, formatter_class=argparse.RawDescriptionHelpFormatter)
    options.add_argument("crate")
    options.add_argument("--newer", metavar="FILE", help="leaves out modules that are not newer than this file")
    options.add_argument("--lines", type=int, default=60, metavar="N", help="shows the N dearest functions")
    given = options.parse_args()
    newer = pathlib.Path(given.newer).stat().st_mtime_ns if given.newer else 0
    modules = modules_of(given.crate, newer)
    if not modules:
        raise SystemExit(f"{given.crate}: no modules in crates/{given.crate}/out/incremental that are new enough")
    kinds, parts, functions = collections.Counter(), collections.Counter(), collections.defaultdict(collections.Counter)
    before = modules[0][0]
    for written, name in modules:
        kind, function, part = split_module(given.crate, name)
        time, before = (written - before) / 1e9, written
        kinds[kind] += time
        if function:
            parts[part] += time
            functions[function][part] += time
    print(f"{given.crate}: {(modules[-1][0] - modules[0][0]) / 1e9:.0f} s between the first and the last of {len(modules)} modules")
    show("by kind", kinds)
    show("by part of a function", parts)
    dearest = collections.Counter()
    for function, times in functions.items():
        shares = ", ".join(f"{part} {time:.2f}" for part, time in times.most_common(3))
        dearest[f"{function}  ({shares})"] = sum(times.values())
    show(f"by function, {len(functions)} in all", dearest, given.lines)


main()
