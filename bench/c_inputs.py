#!/usr/bin/env python3
"""Compares the C library with the program, and makes hostile calls, which have to do what its header says.

    bench/c_inputs.py [--inputs N] [--hostile N] [--seed S] [--jobs J] [--program PATH]

1. Each command on each example, and N random cases (10,000), many of them damaged. The library's status and text, by `run` of the
   Python package, have to be the program's.
2. N hostile calls (10,000), by bench/c_replay.c under valgrind: damaged cases, sheets and JSON; damaged and random words and
   proofs; random bytes; outputs of all sizes. Of each call it checks:
   - it reads and writes nothing past what it is given, and leaves no block;
   - its status is one of the header's;
   - a text that does not fit is reported with its length;
   - the status and the text are those of the same call by `run`.

Prints each difference and a line of figures for each part. Ends with status 1 if there is a difference. Needs c/out, which
c/build.sh makes, the built program, cc and valgrind.
"""
import argparse
import collections
import concurrent.futures
import os
import random
import struct
import subprocess
import sys
import tempfile

HERE = os.path.dirname(os.path.abspath(__file__))
TOP = os.path.dirname(HERE)
sys.path[:0] = [HERE, os.path.join(TOP, "python")]
import hostile
import welungad

COMMANDS = [["test"], ["test"], ["test", "--priority=last"], ["test", "--priority=ratio"], ["weights"], ["bounds"], ["simes"],
            ["evidence"], ["evidence", "--priority", "ratio"], ["stages"], ["canon"], ["canon", "--to=json"],
            ["canon", "--to", "csv"]]
PROGRAM = os.path.join(TOP, "crates", "welungad", "out", "welungad")
BATCH = 250


def say(words, case, proof=None):
    """Returns what the program answers; FILE of `check` is a file with the proof's bytes."""
    with tempfile.TemporaryDirectory() as room:
        if proof is not None:
            path = os.path.join(room, "proof")
            with open(path, "wb") as file:
                file.write(proof)
            words = [path if word == "PROOF" else word for word in words]
        done = subprocess.run([PROGRAM, *words], input=case, stdout=subprocess.PIPE, stderr=subprocess.PIPE)
        return done.returncode, done.stdout


def differences(words, case, proof=None):
    """Returns the library's answer, and a line for it if the program's is another."""
    ours, theirs = welungad.run(words, case, proof or b""), say(words, case, proof)
    return ours, [] if ours == theirs else [f"{words}: library {ours[0]} {ours[1][:120]!r}, program {theirs[0]} {theirs[1][:120]!r}"]


# ---- examples and random cases


def example_calls():
    """Yields each command on each example, as words and a case."""
    folder = os.path.join(TOP, "examples")
    for name in sorted(os.listdir(folder)):
        if name.endswith(".md"):
            continue
        with open(os.path.join(folder, name), "rb") as file:
            case = file.read()
        form = ["--form", "csv", "--alpha", "0.025"] if name.endswith(".csv") else []
        for command in COMMANDS:
            yield command + form, case


def given(rng):
    """Returns a case as its form, the words that name it, and its bytes: whole, or damaged once or twice."""
    form, words, text = hostile.in_some_form(rng, hostile.text_of(rng))
    for _ in range(rng.choice([0, 0, 0, 1, 1, 2])):
        text = hostile.damaged(rng, form, text) or "\n"
    return words if form != "text" else [], text.encode("utf-8" if form == "json" and rng.random() < 0.5 else "latin-1", "replace")


def random_case(seed, number):
    """Compares the answers to a random case, and those to its evidence, whole or damaged. Returns the statuses and the
    differences."""
    rng = random.Random(f"{seed} {number}")
    form, case = given(rng)
    command = rng.choice(COMMANDS)
    (status, text), found = differences(command + form, case)
    statuses = [f"{command[0]} {status}"]
    if status == 0 and command[0] == "evidence":
        proof = text if rng.random() < 0.5 else hostile.damaged(rng, "text", text.decode()).encode("latin-1", "replace")
        (status, _), more = differences(["check", "PROOF", *form], case, proof)
        statuses.append(f"check {status}")
        found += more
    return statuses, [f"input {number}: {line}" for line in found]


# ---- hostile calls


def some_bytes(rng, most):
    return bytes(rng.randrange(256) for _ in range(rng.randrange(most)))


def some_words(rng):
    """Returns the bytes of words: those of a command, random ones, damaged ones, or any bytes."""
    kind = rng.randrange(6)
    if kind == 0:
        return some_bytes(rng, 40)
    words = [rng.choice(hostile.WORDS) for _ in range(rng.randrange(6))] if kind == 1 else rng.choice(COMMANDS)
    joined = bytearray(b"".join(word.encode() + b"\0" for word in words))
    if kind == 2 and joined:
        joined[rng.randrange(len(joined))] = rng.randrange(256)
    if kind == 3:
        del joined[rng.randrange(len(joined) + 1):]
    return bytes(joined)


def hostile_call(seed, number):
    """Returns the bytes of words, a case and a proof, and a room."""
    rng = random.Random(f"hostile {seed} {number}")
    form, case = given(rng)
    words, proof = some_words(rng), b""
    if form and rng.random() < 0.9:
        words += b"".join(word.encode() + b"\0" for word in form)
    if rng.random() < 0.1:
        case = some_bytes(rng, 3000)
    if rng.random() < 0.15:
        status, text = welungad.run(["evidence", *form], case)
        proof = text if status == 0 else some_bytes(rng, 400)
        words = b"".join(word.encode() + b"\0" for word in ["check", "-", *form])
        if rng.random() < 0.6:
            proof = hostile.damaged(rng, "text", proof.decode("latin-1") or "\n").encode("latin-1", "replace")
    return words, case, proof, rng.choice([0, 1, rng.randrange(64), rng.randrange(600), 65536])


def checksum(text):
    total = 14695981039346656037
    for byte in text:
        total = (total ^ byte) * 1099511628211 % 2**64
    return total


def call_of(words, case, proof):
    """Returns the answer by `run`: words as bytes, each ended by a byte 0, or else unreadable ones."""
    if words and not words.endswith(b"\0"):
        return 10, b""
    return welungad.run(words.split(b"\0")[:-1], case, proof)


def replay(replayer, seed, first, count):
    """Makes hostile calls under valgrind. Returns the statuses and the differences."""
    calls = [hostile_call(seed, number) for number in range(first, first + count)]
    with tempfile.NamedTemporaryFile() as file:
        for words, case, proof, room in calls:
            file.write(struct.pack("<4Q", len(words), len(case), len(proof), room) + words + case + proof)
        file.flush()
        done = subprocess.run(["valgrind", "-q", "--error-exitcode=9", "--leak-check=full", "--show-leak-kinds=all",
                               "--errors-for-leak-kinds=all", replayer, file.name], stdout=subprocess.PIPE, stderr=subprocess.PIPE)
    if done.returncode != 0:
        return [], [f"calls {first} to {first + count - 1}: status {done.returncode}: {done.stderr.decode()[:2000]}"]
    statuses, found = [], []
    for number, line in enumerate(done.stdout.decode().splitlines()):
        status, text = call_of(*calls[number][:3])
        statuses.append(f"{status}")
        if line != f"{status} {len(text)} {checksum(text):016x}":
            found.append(f"call {first + number}: {line} in C, {status} {text[:120]!r} in Python")
    if len(statuses) != count:
        found.append(f"calls {first} to {first + count - 1}: {len(statuses)} answers")
    return statuses, found


# ---- the whole


class Tally:
    """Counts of statuses, and the differences, of a part."""

    def __init__(self):
        self.statuses = collections.Counter()
        self.found = 0

    def add(self, statuses, found):
        self.statuses.update(statuses)
        self.found += len(found)
        for line in found:
            print(line, flush=True)

    def show(self, what):
        counts = ", ".join(f"{status}: {count}" for status, count in sorted(self.statuses.items()))
        print(f"{what}: {self.found} differences ({counts})", flush=True)
        return self.found


def random_cases(seed, first, count):
    statuses, found = [], []
    for number in range(first, first + count):
        more, lines = random_case(seed, number)
        statuses += more
        found += lines
    return statuses, found


def in_batches(pool, make, count, *arguments):
    """Makes `count` calls in batches, and returns the tally."""
    tally = Tally()
    firsts = range(0, count, BATCH)
    for done in [pool.submit(make, *arguments, first, min(BATCH, count - first)) for first in firsts]:
        tally.add(*done.result())
    return tally


def main():
    global PROGRAM
    parser = argparse.ArgumentParser(description=__doc__, formatter_class=argparse.RawDescriptionHelpFormatter)
    parser.add_argument("--inputs", type=int, default=10000)
    parser.add_argument("--hostile", type=int, default=10000)
    parser.add_argument("--seed", type=int, default=1)
    parser.add_argument("--jobs", type=int, default=os.cpu_count())
    parser.add_argument("--program", default=PROGRAM)
    options = parser.parse_args()
    PROGRAM = hostile.PROGRAM = options.program
    replayer = os.path.join(HERE, "out", "c_replay")
    os.makedirs(os.path.dirname(replayer), exist_ok=True)
    subprocess.run(["cc", "-g", "-O1", "-Wall", "-Wextra", "-o", replayer, os.path.join(HERE, "c_replay.c"),
                    os.path.join(TOP, "c", "out", "libwelungad.a")], check=True)
    found = 0
    tally = Tally()
    for words, case in example_calls():
        (status, _), lines = differences(words, case)
        tally.add([f"{status}"], lines)
    found += tally.show("examples")
    with concurrent.futures.ProcessPoolExecutor(options.jobs) as pool:
        found += in_batches(pool, random_cases, options.inputs, options.seed).show(f"{options.inputs} random cases")
        found += in_batches(pool, replay, options.hostile, replayer, options.seed).show(f"{options.hostile} hostile calls")
    return 1 if found else 0


if __name__ == "__main__":
    sys.exit(main())
