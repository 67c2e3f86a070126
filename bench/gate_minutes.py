#!/usr/bin/env python3
"""Measures what the gate takes, crate by crate, in minutes of a processor.

    bench/gate_minutes.py sample FILE
    bench/gate_minutes.py table FILE [BEFORE]

`sample` looks at the processes of this machine each 0.4 seconds, until it is interrupted, and writes to FILE the processor time
of each prover: by crate, and by whether it proved the crate, its tests or a planted bug. Begin it just before the gate. `rt ci` takes
over what an earlier run on this machine proved from the same files, so have it prove all anew:

    bench/gate_minutes.py sample /tmp/gate.json &
    sampler=$!
    rt ci --anew
    kill $sampler

`table` prints the rows of the table in bench/README.md, in the order of crates.txt; with the FILE of an earlier run, also the
crates that changed by more than a quarter of a minute. Let nothing else prove beside it: provers of other checkouts don't count, but
slow these down, and planted bugs of any checkout count. A process that ends between two looks loses less than half a second, so small
crates come out a little low.
"""
import collections
import json
import os
import pathlib
import re
import signal
import sys
import time

TOP = pathlib.Path(__file__).resolve().parent.parent
TICKS = os.sysconf("SC_CLK_TCK")
KINDS = ("proof", "test", "planted", "native")


def process_key(process):
    """Returns the kind of work and the crate of a prover, or nothing for another process."""
    words = (process / "cmdline").read_bytes().decode("utf-8", "replace").split("\0")
    program = os.path.basename(words[0])
    if not program.startswith(("rattle", "antt")):
        return None
    if "--crate-name" not in words:
        return "native", "?"
    crate = words[words.index("--crate-name") + 1]
    place = os.readlink(process / "cwd")
    if "/rt-edit" in place:
        return "planted", crate
    if not place.startswith(f"{TOP}/"):
        return None
    if "--test" in words:
        return "test", crate
    return "proof", crate


def process_times(stat):
    """Returns when a process began, and its processor time in seconds."""
    fields = stat[stat.rindex(")") + 2 :].split()
    return fields[19], (int(fields[11]) + int(fields[12])) / TICKS


def look(seen, earlier, is_first):
    """Notes the processor time of each prover since the first look, by its number and its beginning."""
    for process in pathlib.Path("/proc").iterdir():
        if not process.name.isdigit():
            continue
        try:
            began, seconds = process_times((process / "stat").read_text())
            known = seen.get((process.name, began))
            key = known[0] if known else process_key(process)
        except OSError:
            continue
        if key:
            before = earlier.setdefault((process.name, began), seconds if is_first else 0)
            seen[process.name, began] = key, seconds - before


def write(seen, file):
    """Writes the sums of the times, over what the file held."""
    sums = collections.Counter()
    for (kind, crate), seconds in seen.values():
        sums[f"{kind} {crate}"] += seconds
    new = pathlib.Path(f"{file}.new")
    new.write_text(json.dumps(dict(sums), indent=0) + "\n")
    new.replace(file)


def sample(file):
    """Looks until it is interrupted; writes each ten seconds and at the end."""
    seen, earlier, ended, looks = {}, {}, [], 0
    for number in (signal.SIGINT, signal.SIGTERM):
        signal.signal(number, lambda *_: ended.append(True))
    while not ended:
        look(seen, earlier, is_first=looks == 0)
        looks += 1
        if looks % 25 == 0:
            write(seen, file)
        time.sleep(0.4)
    write(seen, file)


def minutes_of(file):
    """Returns the minutes of a file by kind and crate."""
    found = {kind: collections.Counter() for kind in KINDS}
    for key, seconds in json.loads(pathlib.Path(file).read_text()).items():
        kind, crate = key.split(" ")
        found[kind][crate] += seconds / 60
    return found


def crates():
    """Returns the crates, each after those that it needs, in the order of crates.txt."""
    needs = {}
    for line in (TOP / "crates.txt").read_text(encoding="utf-8").split("\n"):
        found = re.match(r"(\w+)[^:#]*:([^#]*)", line)
        if found:
            needs[found[1]] = found[2].split()
    order = []

    def add(crate):
        for below in needs[crate]:
            if below in needs and below not in order:
                add(below)
        if crate not in order:
            order.append(crate)

    for crate in needs:
        add(crate)
    return order


def cell(minutes, count=None):
    text = f"{minutes:.1f}" if minutes >= 0.05 else ""
    return f"{text} ({count})".strip() if count else text


def table(file, before=None):
    """Prints the rows of the table, the sums, and what changed."""
    found = minutes_of(file)
    counts = {crate: len(list((TOP / "crates" / crate / "must-fail").glob("*.edit"))) for crate in crates()}
    print("| Crate | Proof | Tests | Planted bugs |\n|---|---|---|---|")
    for crate in crates():
        proof, test, planted = (found[kind][crate] for kind in KINDS[:3])
        print(f"| {crate} | {cell(proof)} | {cell(test)} | {cell(planted, counts[crate])} |")
    sums = [sum(found[kind].values()) for kind in KINDS]
    print(f"| all | {sums[0]:.0f} | {sums[1]:.0f} | {sums[2]:.0f} ({sum(counts.values())}) |")
    print(f"\n{sum(sums):.0f} minutes, of which {sums[3]:.0f} are of no crate")
    if before:
        earlier = minutes_of(before)
        for crate in sorted(set().union(*(it[kind] for it in (found, earlier) for kind in KINDS))):
            was, now = (sum(it[kind][crate] for kind in KINDS) for it in (earlier, found))
            if abs(now - was) > 0.25:
                print(f"{crate}: {was:.1f}, now {now:.1f}")


def main(words):
    if len(words) == 2 and words[0] == "sample":
        sample(words[1])
    elif len(words) in (2, 3) and words[0] == "table":
        table(*words[1:])
    else:
        print(__doc__, end="", file=sys.stderr)
        return 2
    return 0


sys.exit(main(sys.argv[1:]))
