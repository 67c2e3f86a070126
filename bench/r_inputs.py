#!/usr/bin/env python3
"""Compares the R package with the program.

    bench/r_inputs.py [--inputs N] [--seed S] [--jobs J] [--program PATH]

Makes calls of each command on each example, and on N random cases (10,000), many of them damaged, and checks the evidence for
these. The status and the text of welungad_run have to be the program's, by each way that the package has. Prints each difference
and a line of figures. Ends with status 1 if there is a difference. Needs the built program, and R with the package `welungad`.
"""
import argparse
import concurrent.futures
import os
import random
import struct
import subprocess
import sys
import tempfile

import c_inputs
import hostile

HERE = os.path.dirname(os.path.abspath(__file__))


def answered(words, case, proof=b""):
    """Returns a call with the program's answer."""
    return words, case, proof, *c_inputs.say(words, case, proof if words[0] == "check" else None)


def random_calls(seed, number):
    """Returns the calls for a random case: a command, and the check of its evidence, whole or damaged."""
    rng = random.Random(f"{seed} {number}")
    form, case = c_inputs.given(rng)
    command = rng.choice(c_inputs.COMMANDS)
    calls = [answered(command + form, case)]
    status, text = calls[0][3:]
    if status == 0 and command[0] == "evidence":
        proof = text if rng.random() < 0.5 else hostile.damaged(rng, "text", text.decode()).encode("latin-1", "replace")
        calls.append(answered(["check", "PROOF", *form], case, proof))
    return calls


def record(words, case, proof, status, text):
    """Returns the bytes of a call: five lengths or numbers of 4 bytes, and the parts."""
    joined = "\n".join(words).encode()
    head = struct.pack("<5i", len(joined), len(case), len(proof), status, len(text))
    return head + joined + case + proof + text


def main():
    parser = argparse.ArgumentParser(description=__doc__, formatter_class=argparse.RawDescriptionHelpFormatter)
    parser.add_argument("--inputs", type=int, default=10000)
    parser.add_argument("--seed", type=int, default=1)
    parser.add_argument("--jobs", type=int, default=os.cpu_count())
    parser.add_argument("--program", default=c_inputs.PROGRAM)
    given = parser.parse_args()
    c_inputs.PROGRAM = hostile.PROGRAM = os.path.abspath(given.program)
    with tempfile.NamedTemporaryFile(suffix=".calls") as file:
        for words, case in c_inputs.example_calls():
            file.write(record(*answered(words, case)))
        with concurrent.futures.ThreadPoolExecutor(given.jobs) as pool:
            for calls in pool.map(lambda number: random_calls(given.seed, number), range(given.inputs)):
                for call in calls:
                    file.write(record(*call))
        file.flush()
        words = ["Rscript", os.path.join(HERE, "r_replay.R"), file.name]
        return subprocess.run(words, env={**os.environ, "WELUNGAD": c_inputs.PROGRAM}).returncode


sys.exit(main())
