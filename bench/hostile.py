#!/usr/bin/env python3
"""Makes inputs from a seed, damages most of them, runs the program on each, and holds it to what can be known without
another implementation.

    bench/hostile.py [--inputs N] [--seed S] [--jobs J] [--program PATH] [--first N]

Inputs are texts, sheets and JSON, damaged by bytes, lines, cells and values. A few are lists of words, named graphs and
samples. For each run it checks:

- the status is from 0 to 5, or 6 if FILE cannot be opened;
- with status 0 the text is whole; else it is one line of printable bytes, which begins as the lines of its status do;
- now and then, that the same input has the same answer.

For each case that is accepted it checks:

- its canonical text is canonical; its text, sheet and JSON are answered alike and lead back to one another;
- by the definition of the closed test, the weights of all intersections give the rejected hypotheses and all bounds;
- weighted Simes rejects no less, and its bounds are no lower;
- a hypothesis is rejected at its adjusted value and just above, and not just below;
- evidence is accepted, and a changed or made-up document is never accepted for a hypothesis that isn't rejected;
- looks in another order end with the same rejections, and a study of the same looks rejects what `stages` does.

A check is left out if the program does not have its command. Prints each finding with the number of its input, and ends with
status 1 if there is one.
"""
import argparse
import csv
import io
import json
import math
import multiprocessing
import os
import random
import re
import subprocess
import sys
import tempfile
import time
from fractions import Fraction

HERE = os.path.dirname(os.path.abspath(__file__))
PROGRAM = os.path.join(HERE, "..", "crates", "welungad", "out", "welungad")
ROOM = tempfile.gettempdir()
HAVE = set()
NAMES = ["H1", "H2", "H3", "primary", "x.1", "A-b", "Q_7", "h"]
HOSTILE = ["", "-1", "1/0", "2", "0", "1e-40", "1" * 40, "1/1000000000000000001", "NA", ".", "+", "1e", "H1", "\\epsilon",
           "1-\\epsilon", "\\epsilon^5", "(" * 40, "0.1" * 3, "\0", "\xff", "#", "end", "9" * 20, "1/10001", "1e-31", '"']
VALUES = [None, True, [], {}, "", 0, 1, -1, 0.5, -0.0, 2**63, 2**64 - 1, 2**64, -(2**63), 10**18 + 1, "1/0", "NA", "1e-40",
          "\\epsilon", "1-\\epsilon", "H1", "h", "\0", "\xe9", [[]], {"from": 1}, {"steps": []}, "1/10001", 13]
KEYS = ["alpha", "p", "share", "edges", "weights", "stages", "steps", "levels", "count", "stage", "more", "\xe9"]
BEGINNINGS = {1: b"no: ", 2: b"usage: word ", 3: b"malformed: ", 4: b"limit: ", 5: b"too wide: "}
WORDS = ["test", "weights", "bounds", "simes", "evidence", "check", "stages", "canon", "catalogue", "sample", "help", "study",
         "--form", "--form=json", "--form=csv", "text", "csv", "json", "--alpha", "--alpha=0.05", "0.05", "--to", "--to=csv",
         "--priority", "--priority=last", "ratio", "--size", "--size=3", "3", "--seed", "--seed=1", "--second=2", "holm",
         "parallel", "fallback", "", "-", "--", "--x", "no-such-file", "18446744073709551616", "1/0"]


class Finding(Exception):
    pass


def must(holds, what):
    if not holds:
        raise Finding(what)


def run(words, given=b""):
    done = subprocess.run([PROGRAM, *words], input=given, stdout=subprocess.PIPE, stderr=subprocess.PIPE, timeout=120)
    status, text = done.returncode, done.stdout
    must(0 <= status <= 6, f"status {status} of {words}")
    must(status != 6 or text == b"read fault\n", f"status 6 of {words} with {text[:80]!r}")
    must(not done.stderr, f"errors are written by {words}: {done.stderr[:80]!r}")
    if status == 0:
        must(text.endswith(b"\n"), f"a text of {words} that isn't whole")
    elif status != 6:
        must(text.startswith(BEGINNINGS[status]), f"status {status} of {words} with {text[:80]!r}")
        must(re.fullmatch(rb"[ -~]*\n", text), f"no line of {words}: {text[:80]!r}")
    return status, text


# ---- cases


def shares(rng, count, full=True):
    """Returns the requested number of fractions, which sum to at most 1."""
    parts = [rng.randrange(0, 5) for _ in range(count)]
    if sum(parts) == 0:
        parts[rng.randrange(count)] = 1
    total = sum(parts) + (0 if full and rng.random() < 0.7 else rng.randrange(0, 3))
    return [Fraction(part, total) for part in parts]


def spelt(rng, value):
    """Returns a fraction in one of its spellings."""
    if value.denominator in (1, 2, 4, 5, 8, 10, 20, 25, 40, 50, 100) and rng.random() < 0.4:
        digits = f"{float(value):.6f}".rstrip("0")
        return digits + "0" if digits.endswith(".") else digits
    times = rng.choice([1, 1, 1, 2, 3])
    if value.denominator * times == 1:
        return str(value.numerator)
    return f"{value.numerator * times}/{value.denominator * times}"


def edge_lines(rng, names):
    lines = []
    for name in names:
        others = [other for other in names if other != name]
        if not others or rng.random() < 0.15:
            continue
        parts = shares(rng, len(others))
        small = rng.choice(others) if rng.random() < 0.15 else None
        for other, part in zip(others, parts):
            weight = spelt(rng, part)
            if small is not None and small != other and part > 0:
                weight = f"{weight}*(1-\\epsilon)"
            if small == other:
                weight = f"{weight}*(1-\\epsilon)" if part > 0 else "0"
            if part > 0 or rng.random() < 0.2:
                lines.append(f"edge {name} {other} {weight}")
        if small is not None and rng.random() < 0.7:
            lines = [line for line in lines if not line.startswith(f"edge {name} {small} ")]
            lines.append(f"edge {name} {small} 1/9*\\epsilon")
    rng.shuffle(lines)
    return lines


def weights_line(rng, names):
    return "weights " + " ".join(spelt(rng, part) for part in shares(rng, len(names)))


def p_value(rng):
    return Fraction(rng.randrange(0, 60), rng.choice([100, 200, 1000, 1000, 10000]))


def spend_lines(rng, name, count, alpha):
    """Returns fractions of the level, or a table of one or two steps whose levels never fall."""
    if rng.random() < 0.7:
        return [f"spend {name} " + " ".join(spelt(rng, part) for part in shares(rng, count))]
    begins = sorted(rng.sample([Fraction(1, 8), Fraction(1, 4), Fraction(1, 2), Fraction(1)], rng.randrange(1, 3)))
    levels = [part * begins[0] * alpha for part in shares(rng, count)]
    lines = []
    for begin in begins:
        lines.append(f"table {name} {begin} " + " ".join(str(level) for level in levels))
        levels = [level * rng.choice([1, 2]) for level in levels]
    return lines


def stage_lines(rng, names, alpha):
    count = rng.randrange(1, 4)
    lines = [f"stages {count}"]
    for name in names:
        lines += spend_lines(rng, name, count, alpha)
    pairs = [(name, stage + 1) for name in names for stage in range(count)]
    rng.shuffle(pairs)
    for name, stage in pairs[: rng.randrange(0, len(pairs) + 1)]:
        lines.append(f"arrive {name} {stage} {spelt(rng, p_value(rng))}")
    return lines


def text_of(rng):
    names = NAMES[: rng.choice([1, 2, 2, 3, 3, 4, 5, 6])]
    alpha = rng.choice(["0.05", "1/40", "0.1", "1", "1/20"])
    lines = [f"alpha {alpha}", "hypotheses " + " ".join(names)]
    staged = rng.random() < 0.2
    if not staged and rng.random() < 0.9:
        lines.append("p " + " ".join(spelt(rng, p_value(rng)) for _ in names))
    if rng.random() < 0.75:
        lines += [weights_line(rng, names), *edge_lines(rng, names)]
    else:
        for share in shares(rng, rng.randrange(1, 4)):
            lines += [f"component {spelt(rng, share)}", weights_line(rng, names), *edge_lines(rng, names)]
    if staged:
        lines += stage_lines(rng, names, Fraction(alpha))
    return "\n".join(lines) + "\n"


# ---- damage


def changed_bytes(rng, text):
    kind = rng.randrange(4)
    at = rng.randrange(len(text))
    if kind == 0:
        return text[:at]
    if kind == 1:
        return text[:at] + chr(rng.randrange(256)) + text[at + 1 :]
    if kind == 2:
        return text[:at] + text[at + 1 :]
    return text[:at] + rng.choice(["\r\n", "\n", " ", "\t", ",", '"', "{", "]", "#", "\0"]) + text[at:]


def changed_pieces(rng, text, between):
    """Removes, repeats, moves or shuffles one of the lines, or of other items between these marks."""
    pieces = text.split(between)
    kind = rng.randrange(4)
    at = rng.randrange(len(pieces))
    if kind == 0:
        pieces.pop(at)
    elif kind == 1:
        pieces.insert(rng.randrange(len(pieces) + 1), pieces[at])
    elif kind == 2:
        other = rng.randrange(len(pieces))
        pieces[at], pieces[other] = pieces[other], pieces[at]
    else:
        words = pieces[at].split(" ")
        rng.shuffle(words)
        pieces[at] = " ".join(words)
    return between.join(pieces)


def changed_word(rng, text):
    words = re.split(r"([ ,\"\[\]{}:\n]+)", text)
    words[2 * rng.randrange((len(words) + 1) // 2)] = rng.choice(HOSTILE)
    return "".join(words)


def places(value, path=()):
    """Returns the paths of all values in a JSON value."""
    found = [path]
    inner = value.items() if isinstance(value, dict) else enumerate(value) if isinstance(value, list) else []
    for key, part in inner:
        found += places(part, (*path, key))
    return found


def changed_value(rng, text):
    """Replaces or removes a value of a JSON text, or puts another one beside it."""
    try:
        whole = json.loads(text)
    except ValueError:
        return changed_bytes(rng, text)
    path = rng.choice(places(whole))
    if not path:
        return json.dumps(rng.choice(VALUES))
    around = whole
    for key in path[:-1]:
        around = around[key]
    kind = rng.randrange(4)
    if kind == 0:
        around.pop(path[-1])
    elif kind == 1 and isinstance(around, list):
        around.insert(rng.randrange(len(around) + 1), around[path[-1]])
    elif kind == 1:
        around[rng.choice(KEYS)] = rng.choice(VALUES)
    else:
        around[path[-1]] = rng.choice(VALUES)
    return json.dumps(whole, ensure_ascii=rng.random() < 0.5, indent=rng.choice([None, None, 1]))


def changed_cell(rng, text):
    """Replaces, removes or adds a cell of a sheet."""
    rows = list(csv.reader(io.StringIO(text.replace("\0", "").replace("\r", ""))))
    rows = [row for row in rows if row] or [["hypothesis"]]
    row = rng.choice(rows)
    kind = rng.randrange(4)
    if kind == 0:
        row.pop(rng.randrange(len(row)))
    elif kind == 1:
        row.insert(rng.randrange(len(row) + 1), rng.choice(HOSTILE))
    else:
        row[rng.randrange(len(row))] = rng.choice(HOSTILE)
    written = io.StringIO()
    csv.writer(written, quoting=rng.choice([csv.QUOTE_MINIMAL, csv.QUOTE_ALL]), lineterminator="\n").writerows(rows)
    return written.getvalue()


def damaged(rng, form, text):
    kind = rng.randrange(5)
    if kind == 0:
        return changed_bytes(rng, text)
    if kind == 1:
        return changed_pieces(rng, text, "," if form == "json" else "\n")
    if kind == 2 or form == "text":
        return changed_word(rng, text)
    try:
        return changed_value(rng, text) if form == "json" else changed_cell(rng, text)
    except (csv.Error, RecursionError):
        return changed_bytes(rng, text)


# ---- what is held of an accepted case


def lines_of(text, word):
    """Returns the other words of the lines that begin with a word, line by line."""
    lines = (line.split(" ") for line in text.decode().splitlines())
    return [line[1:] for line in lines if line[0] == word]


def named(text, word):
    return lines_of(text, word)[0]


def in_form(form, text):
    """Returns the words for the form of a case; a sheet has no level, so that of the text is among them."""
    return ["--form", form] + (["--alpha", named(text, "alpha")[0]] if form == "csv" else [])


def hold_canon(words, given):
    status, text = run(["canon", *words], given)
    must(status == 0, "an accepted case without a canonical text")
    must(run(["canon"], text) == (0, text), "a canonical text that isn't canonical")
    return text


def hold_forms(rng, command, text, answer):
    """Holds the sheet and the JSON of a case to its text: they lead back to it, and are answered as it is."""
    for form in ("csv", "json"):
        status, there = run(["canon", "--to", form], text)
        if status != 0:
            must(form == "csv" and there == b"malformed: kind\n", f"no {form}")
            must(len(lines_of(text, "component")) > 0 or lines_of(text, "stages"), "no sheet of one graph")
            continue
        words = in_form(form, text)
        must(run(["canon", *words], there) == (0, text), f"{form} doesn't lead back")
        must(run(["canon", *words, "--to", form], there) == (0, there), f"{form} isn't canonical")
        if command != "canon" and not (command == "stages" and form == "csv"):
            must(run([command, *words], there) == answer, f"{form} is answered otherwise")


def at_level(text, level):
    """Returns the canonical text of a case at another level."""
    return f"alpha {level}\n".encode() + text[text.index(b"\n") + 1 :]


def levels_near(value):
    """Levels of short parts: just below a value, the value itself, and just above it."""
    tries = [10000, 9999, 9973, 9967, 9001, 8191]
    below = max((Fraction(math.ceil(value * d) - 1, d) for d in tries), default=0)
    above = min(Fraction(math.floor(value * d) + 1, d) for d in tries)
    levels = [below, above] + ([value] if max(value.numerator, value.denominator) <= 10000 else [])
    return [level for level in levels if 0 < level <= 1]


def hold_levels(text, decided):
    for name, value, *mark in lines_of(decided, "adjusted"):
        for level in levels_near(Fraction(value)):
            status, there = run(["test"], at_level(text, level))
            must(status in (0, 5), f"status {status} at level {level}")
            if status == 0:
                wanted = not mark and Fraction(value) <= level
                must((name in named(there, "rejected")) == wanted, f"adjusted {name} {value} at level {level}")


def weights_of(text):
    """Returns for each intersection the weights of its hypotheses."""
    told = [[pair.rsplit("=", 1) for pair in line] for line in lines_of(text, "set")]
    return [{name: Fraction(weight) for name, weight in line} for line in told]


def closed_by(weights, p, alpha):
    """Returns the intersections that the closed test rejects, by its definition, and all intersections."""
    local = {frozenset(line): any(u > 0 and p[k] <= u * alpha for k, u in line.items()) for line in weights}
    return {one for one in local if all(local[other] for other in local if one <= other)}, list(local)


def bound_by(closed, all_sets, one):
    kept = [len(other) for other in all_sets if other <= one and other not in closed]
    return len(one) - max(kept, default=0)


def hold_closure(text, rejected):
    status, told = run(["weights"], text)
    must(status in (0, 5), f"status {status} of weights")
    if status != 0:
        return
    weights = weights_of(told)
    names = named(text, "hypotheses")
    must(len(weights) == 2 ** len(names) - 1, "sets are missing")
    must(all(sum(line.values()) <= 1 and min(line.values()) >= 0 for line in weights), "weights above 1 or below 0")
    p = dict(zip(names, map(Fraction, named(text, "p"))))
    closed, all_sets = closed_by(weights, p, Fraction(named(text, "alpha")[0]))
    must([name for name in names if frozenset([name]) in closed] == rejected, "the closed test rejects others")
    status, bounds = run(["bounds"], text)
    must(status == 0, "no bounds beside weights")
    told = {frozenset(line[2:]): int(line[0]) for line in lines_of(bounds, "bound")}
    must(told == {one: bound_by(closed, all_sets, one) for one in all_sets}, "other bounds")
    hold_simes(text, rejected, told)


def hold_simes(text, rejected, bounds):
    if "simes" not in HAVE:
        return
    status, there = run(["simes"], text)
    must(status in (0, 5), f"status {status} of simes")
    if status == 0:
        must(set(rejected) <= set(named(there, "rejected")), "weighted Simes rejects less")
        told = {frozenset(line[2:]): int(line[0]) for line in lines_of(there, "bound")}
        must(all(told[one] >= bound for one, bound in bounds.items()), "weighted Simes has a lower bound")


def checked(text, proof):
    path = os.path.join(ROOM, f"proof-{os.getpid()}")
    with open(path, "wb") as file:
        file.write(proof)
    return run(["check", path], text)


def hold_proof(text, proof, rejected):
    """Holds a proof that is found good to the rejected hypotheses: it lists no others, and all of them if it says what is kept."""
    status, verdict = checked(text, proof)
    if status == 0:
        listed = named(verdict, "listed")
        must(set(listed) <= set(rejected), f"a proof of another hypothesis: {proof!r}")
        if lines_of(verdict, "kept"):
            must(set(listed) == set(rejected), f"a proof that keeps a rejected hypothesis: {proof!r}")
    return status


def made_up(rng, text, rejected):
    """Returns a proof of a few hypotheses with flows at random."""
    names = named(text, "hypotheses")
    graphs = max(1, len(lines_of(text, "component")))
    steps = rng.sample(names, rng.randrange(0, min(4, len(names) + 1)))
    if rng.random() < 0.5:
        steps = rejected[:4]
    lines = ["evidence 1"]
    for count, name in enumerate(steps):
        lines.append(f"step {name}")
        for graph in range(graphs):
            lines += [f"flow {graph + 1} {earlier} {rng.choice(shares(rng, 3))}" for earlier in steps[:count]]
    return "\n".join([*lines, "end", ""]).encode()


def hold_evidence(rng, text, rejected):
    hold_proof(text, made_up(rng, text, rejected), rejected)
    if "evidence" not in HAVE:
        return
    status, proof = run(["evidence", "--priority", rng.choice(["first", "last", "ratio"])], text)
    must(status in (0, 5), f"status {status} of evidence")
    if status != 0:
        return
    must(hold_proof(text, proof, rejected) == 0, "evidence that isn't found good")
    must(sorted(name for name, in lines_of(proof, "step")) == sorted(rejected), "evidence lists others")
    for _ in range(2):
        hold_proof(text, damaged(rng, "text", proof.decode()).encode("latin-1") or b"\n", rejected)


def hold_test(rng, text, decided):
    rejected = named(decided, "rejected")
    other = run(["test", "--priority", rng.choice(["last", "ratio"])], text)
    must(other[0] in (0, 5), f"status {other[0]} of another priority")
    must(other[0] != 0 or named(other[1], "rejected") == rejected, "another priority rejects others")
    kind = rng.randrange(3)
    if kind == 0:
        hold_levels(text, decided)
    elif kind == 1:
        hold_closure(text, rejected)
    else:
        hold_evidence(rng, text, rejected)


def hold_looks(rng, text, settled):
    """Holds the same looks in another order to the same rejections, and a study of them to the same replies."""
    lines = text.decode().splitlines()
    arrivals = [line for line in lines if line.startswith("arrive ")]
    others = [line for line in lines if not line.startswith("arrive ")]
    shuffled = rng.sample(arrivals, len(arrivals))
    status, there = run(["stages"], "\n".join([*others, *shuffled, ""]).encode())
    must(status in (0, 5), f"status {status} of looks in another order")
    if status == 0:
        must(named(there, "rejected") == named(settled, "rejected"), "another order of looks rejects others")
    if "study" in HAVE:
        hold_study("\n".join([*others, ""]).encode(), arrivals, settled)


def hold_study(case, arrivals, settled):
    path = os.path.join(ROOM, f"looks-{os.getpid()}")
    with open(path, "w") as file:
        file.write("\n".join([line.replace("arrive ", "look ") for line in arrivals] + [""]))
    status, told = run(["study", path], case)
    must(status == 0, f"status {status} of a study")
    wanted = [line.replace("arrive ", "look ") for line in settled.decode().splitlines()]
    wanted = [line for line in wanted if not line.startswith("rejected")]
    found = [line for line in told.decode().splitlines() if not line.startswith("records ")]
    must(found == wanted, "a study settles otherwise")


def hold(rng, form, words, given):
    command = rng.choice(["test", "test", "test", "stages", "canon", "weights", "bounds"])
    if form == "text" and re.search(rb"^stages ", given, re.MULTILINE) and rng.random() < 0.7:
        command = "stages"
    if command == "stages" and form == "csv":
        command = "test"
    first = run([command, *words], given)
    if rng.random() < 0.1:
        must(run([command, *words], given) == first, "two answers to one input")
    if first[0] != 0:
        return first[0]
    text = hold_canon(words, given)
    if command != "canon":
        must(first[1].endswith(b"\nend\n"), "a report without its end")
        must(run([command], text) == first, "the canonical text is answered otherwise")
    hold_forms(rng, command, text, first)
    if command == "test":
        hold_test(rng, text, first[1])
    elif command == "stages":
        hold_looks(rng, text, first[1])
    return 0


# ---- inputs


def hold_words(rng):
    """Runs words at random twice, with a case on standard input that any command can read."""
    words = [rng.choice(WORDS) for _ in range(rng.randrange(0, 6))]
    given = b"alpha 1/20\nhypotheses H1 H2\np 1/100 1/2\nweights 1/2 1/2\n"
    first = run(words, given)
    must(run(words, given) == first, "two answers to the same words")
    return first[0]


def hold_named(rng):
    """Holds a named graph to its own canonical text, and a sample to the same one."""
    if rng.random() < 0.5:
        words = ["sample", "--size", str(rng.randrange(1, 65)), "--seed", str(rng.randrange(2**48))]
        first = run(words)
        must(first[0] == 0 and run(words) == first, f"{words}")
        return first[0]
    words = ["catalogue", rng.choice(["holm", "fixed-sequence", "fallback", "parallel", "improved-parallel"])]
    words += ["--size", str(rng.randrange(1, 34))]
    words += ["--second", str(rng.randrange(1, 33))] if "parallel" in words[1] else []
    status, text = run(words)
    must(status in (0, 4), f"status {status} of {words}")
    must(status != 0 or run(["canon"], text) == (0, text), f"a graph that isn't canonical: {words}")
    return status


def in_some_form(rng, text):
    """Returns a form, the words for it, and the case in it."""
    form = rng.choice(["text", "csv", "json"])
    given = text.encode("latin-1")
    if form != "text":
        status, there = run(["canon", "--to", form], given)
        if status == 0:
            return form, in_form(form, run(["canon"], given)[1]), there.decode("latin-1")
    return "text", ["--form", "text"], text


def one(job):
    seed, number = job
    rng = random.Random(f"{seed} {number}")
    text = ""
    try:
        if rng.random() < 0.03:
            return number, hold_words(rng) if rng.random() < 0.5 else hold_named(rng), None
        form, words, text = in_some_form(rng, text_of(rng))
        for _ in range(rng.choice([0, 0, 1, 1, 1, 2, 3])):
            text = damaged(rng, form, text) or "\n"
        given = text.encode("utf-8" if form == "json" and rng.random() < 0.5 else "latin-1", "replace")
        return number, hold(rng, form, words, given), None
    except Finding as finding:
        return number, None, f"{finding}\n{text}"
    except subprocess.TimeoutExpired:
        return number, None, f"two minutes pass\n{text}"
    except Exception as error:  # an answer that this script can't read is a finding too
        return number, None, f"{type(error).__name__}: {error}\n{text}"


def begin(program, room, have):
    global PROGRAM, ROOM, HAVE
    PROGRAM, ROOM, HAVE = program, room, have


def standing():
    """Returns the commands that the program has."""
    return {line.split(" ")[0] for line in run(["help"])[1].decode().splitlines()}


def tried(given, jobs):
    """Returns the number of inputs by their status, and of findings."""
    counts, findings = {}, 0
    with tempfile.TemporaryDirectory(prefix="welungad-") as room:
        begin(given.program, room, standing())
        with multiprocessing.Pool(given.jobs, begin, (PROGRAM, room, HAVE)) as pool:
            for number, status, finding in pool.imap_unordered(one, jobs, chunksize=64):
                counts[status] = counts.get(status, 0) + 1
                if finding is not None:
                    findings += 1
                    print(f"input {number}: {finding}", flush=True)
    return counts, findings


def main():
    words = argparse.ArgumentParser(description=__doc__, formatter_class=argparse.RawDescriptionHelpFormatter)
    words.add_argument("--inputs", type=int, default=1000)
    words.add_argument("--first", type=int, default=0, help="the number of the first input")
    words.add_argument("--seed", type=int, default=1)
    words.add_argument("--jobs", type=int, default=2)
    words.add_argument("--program", default=PROGRAM)
    given = words.parse_args()
    begin(given.program, ROOM, HAVE)
    start = time.monotonic()
    counts, findings = tried(given, [(given.seed, given.first + n) for n in range(given.inputs)])
    told = ", ".join(f"{counts[s]} of status {s}" for s in sorted(s for s in counts if s is not None))
    took = time.monotonic() - start
    print(f"{given.inputs} inputs of seed {given.seed} from {given.first}: {told}; {findings} findings; {took:.0f} s")
    print("commands: " + " ".join(sorted(HAVE - {"end"})))
    sys.exit(1 if findings else 0)


if __name__ == "__main__":
    main()
