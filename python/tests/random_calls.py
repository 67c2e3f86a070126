#!/usr/bin/env python3
"""Compares random calls through `Graph` with the program, byte by byte; or makes calls from many threads at once.

    random_calls.py [--calls N] [--seed S] [--program PATH]
    random_calls.py --threads N [--seconds S] [--seed S]

1. N random graphs (10,000) with random numbers, each in a random class of Python. The report of a method, or the refusal, has to be
   what the program prints for a text of the case that is written here.
2. Calls from N threads for S seconds (20), whose answers have to be those of the same calls one after the other.

Prints each difference and a line of figures. Ends with status 1 if there is a difference.
"""
import argparse
import os
import random
import subprocess
import sys
import threading
import time
import warnings
from fractions import Fraction

if __name__ == "__main__":
    sys.path.insert(0, os.path.join(os.path.dirname(os.path.abspath(__file__)), ".."))
import welungad
from welungad import _library

COMMANDS = ["test", "test", "test last", "test ratio", "evidence", "weights", "bounds", "simes", "stages"]


class Call:
    """A call of a method of `Graph`, and the words and the text of the same call of the program."""

    def __init__(self, chance):
        self.command, _, self.priority = chance.choice(COMMANDS).partition(" ")
        self.size = chance.randrange(1, 7)
        self.names = [f"{chance.choice('ABxyz')}{i}" for i in range(self.size)]
        whole = chance.choice([2, 4, 6, 12, 100, 1000, 9973])
        self.weights = parts(chance, whole, self.size)
        self.edges = [parts(chance, whole, self.size) for _ in self.names]
        for i, row in enumerate(self.edges):
            row[i] = Fraction(0)
        if chance.random() < 0.05:
            self.weights[0] += chance.choice([1, -1])
        self.p = [chance.choice([Fraction(chance.randrange(0, 201), 2000), Fraction(chance.randrange(0, 10**9), 10**11)]) for _ in self.names]
        self.alpha = chance.choice([Fraction(1, 40), Fraction(1, 20), Fraction(1, 3)])
        self.levels = [[self.alpha * Fraction(x, 10) for x in (chance.randrange(0, 6), chance.randrange(0, 6))] for _ in self.names]
        looks = [(name, stage) for name in self.names for stage in (1, 2)]
        self.looks = [(*look, chance.choice(self.p)) for look in chance.sample(looks, chance.randrange(0, len(looks) + 1))]

    def words(self):
        return [self.command, *(["--priority", self.priority] if self.priority else [])]

    def text(self):
        """Returns the case, written here."""
        lines = [f"alpha {self.alpha}", "hypotheses " + " ".join(self.names)]
        if self.command not in ("weights", "stages"):
            lines.append("p " + " ".join(map(str, self.p)))
        lines.append("weights " + " ".join(map(str, self.weights)))
        lines += [f"edge {self.names[i]} {self.names[j]} {edge}" for i, row in enumerate(self.edges) for j, edge in enumerate(row) if edge]
        if self.command == "stages":
            lines.append("stages 2")
            lines += [f"spend {name} " + " ".join(str(x / self.alpha) for x in own) for name, own in zip(self.names, self.levels)]
            lines += [f"arrive {name} {stage} {p}" for name, stage, p in self.looks]
        return "".join(line + "\n" for line in lines).encode()

    def answer(self, chance):
        """Returns the status and the text of the same call through `Graph`, with numbers of random classes."""
        edges = {a: dict(zip(self.names, numbers(chance, row))) for a, row in zip(self.names, self.edges)}
        p = dict(reversed(list(zip(self.names, numbers(chance, self.p)))))
        (alpha,) = numbers(chance, [self.alpha])
        try:
            graph = welungad.Graph(numbers(chance, self.weights), edges, self.names)
            if self.command == "weights":
                return 0, graph.weights().report.encode()
            if self.command == "stages":
                looks = [(name, stage, numbers(chance, [it])[0]) for name, stage, it in self.looks]
                return 0, graph.stages([numbers(chance, own) for own in self.levels], looks, alpha, at=1).report.encode()
            options = {"priority": self.priority} if self.priority else {}
            with warnings.catch_warnings():
                warnings.simplefilter("ignore", welungad.ZeroWarning)
                return 0, getattr(graph, self.command)(p, alpha, **options).report.encode()
        except welungad.Refused as refused:
            return refused.status, refused.line.encode() + b"\n"


def parts(chance, whole, count):
    """Returns numbers that sum to at most 1."""
    cuts = sorted(chance.randrange(0, whole + 1) for _ in range(count))
    return [Fraction(b - a, whole) for a, b in zip([0, *cuts], cuts)]


def numbers(chance, values):
    """Returns numbers in random classes of Python."""
    return [chance.choice([value, str(value), double(value), double(value)]) for value in values]


def double(value):
    """Returns the double of a number if it reads as the number; else the number."""
    found = value.numerator / value.denominator
    return found if 0 <= found <= 1 and welungad.as_exact(found) == value else value


def started(program, call):
    """Returns the status and the text of the program."""
    done = subprocess.run([program, *call.words()], input=call.text(), stdout=subprocess.PIPE, check=False)
    return done.returncode, done.stdout


def compare(calls, seed, program):
    """Returns the differences of random calls through `Graph` and of the program, and how many were decided."""
    chance, differences, decided = random.Random(seed), [], 0
    for number in range(calls):
        call = Call(chance)
        ours, theirs = call.answer(chance), started(program, call)
        decided += theirs[0] == 0
        if ours != theirs:
            differences.append(f"call {number} {call.words()}: {ours!r}, and the program {theirs!r} on {call.text()!r}")
    return differences, decided


def run_threads(threads, seconds, seed):
    """Returns how many calls the threads made, and how many of their answers are other ones than before."""
    chance = random.Random(seed)
    calls = [Call(chance) for _ in range(200)]
    wanted = [call.answer(random.Random(seed)) for call in calls]
    end, counts, wrong = time.monotonic() + seconds, [0] * threads, []

    def work(own):
        mine = random.Random(own)
        while time.monotonic() < end:
            at = mine.randrange(len(calls))
            if calls[at].answer(mine) != wanted[at]:
                wrong.append((own, at))
            counts[own] += 1

    started_threads = [threading.Thread(target=work, args=(own,)) for own in range(threads)]
    for thread in started_threads:
        thread.start()
    for thread in started_threads:
        thread.join()
    return sum(counts), len(wrong)


def main():
    parser = argparse.ArgumentParser(description=__doc__, formatter_class=argparse.RawDescriptionHelpFormatter)
    parser.add_argument("--calls", type=int, default=10000)
    parser.add_argument("--seed", type=int, default=1)
    parser.add_argument("--program")
    parser.add_argument("--threads", type=int)
    parser.add_argument("--seconds", type=float, default=20)
    given = parser.parse_args()
    if given.threads:
        made, wrong = run_threads(given.threads, given.seconds, given.seed)
        print(f"{given.threads} threads, {given.seconds:g} seconds: {made} calls, {wrong} wrong")
        return 1 if wrong or not made else 0
    differences, decided = compare(given.calls, given.seed, given.program or _library.program_path())
    for difference in differences[:20]:
        print(difference)
    print(f"{given.calls} calls, {decided} decided: {len(differences)} differences")
    return 1 if differences else 0


if __name__ == "__main__":
    sys.exit(main())
