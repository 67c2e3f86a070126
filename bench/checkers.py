#!/usr/bin/env python3
"""Compares the program with tools/check_evidence.py and tools/closed_test.py on cases that it makes from a seed.

    bench/checkers.py [--documents N] [--damaged N] [--closed N] [--staged N] [--own N] [--seed S] [--jobs J] [--program PATH]

Documents: the program makes evidence for a case, and both check it; of each fourth document the keeps are cut off, which makes
it one of version 1. Damaged: both check such a document after a change of it or of its case. Closed: both decide a case, and
give the weights of all sets, the adjusted p-values and the bounds of all sets. A third of the cases have epsilon, some have
several components, some are sheets or JSON. Staged: both decide a case with stages after each arrival; some of these cases are
damaged, and then both have to refuse it with the same line.

Own: tools/make_evidence.py makes evidence for a case on which the program makes some, with the program's report and without it.
Both documents are checked by both, the second one also after a change.

Agreement means the same status and the same text. Where the program refuses a case or a document as too wide or past a limit
(status 4 or 5, or a number of more than 127 bits), the second checker decides; these runs are counted apart. Prints what came how
often and each disagreement, with the number of its case, and ends with status 1 if there is one.
"""
import argparse
import collections
import json
import multiprocessing
import os
import random
import re
import subprocess
import sys
import tempfile
from fractions import Fraction

HERE = os.path.dirname(os.path.abspath(__file__))
sys.path.insert(0, os.path.join(HERE, "..", "tools"))
import make_evidence  # noqa: E402
import closed_test  # noqa: E402
from check_evidence import WIDEST, Stop, answer  # noqa: E402
from staged_case import staged_case_of  # noqa: E402

PROGRAM = os.path.join(HERE, "..", "crates", "welungad", "out", "welungad")
NUMBERS = ["0", "1", "2", "1/2", "-1/2", "1/3", "501/1000", "1/1000000007", "[1]/[2,-1]", "[0,1]/[1]", "[1,-1]/[2]", "[0,1]/[0,2]",
           "[0,0,-1]/[1]", "4/6", "1/0", "[]", "+1", "0.5", "x", "[1]/[0]", "170141183460469231731687303715884105728"]
WORDS = ["1", "2", "3", "01", "step", "keep", "flow", "exit", "end", "evidence", "", "#"]


def run(words, given):
    done = subprocess.run([PROGRAM, *words], input=given, stdout=subprocess.PIPE, timeout=120)
    return done.returncode, done.stdout.decode("latin-1")


# ---- cases


def shares(rng, count):
    """Returns the requested number of fractions, which sum to at most 1."""
    parts = [rng.randrange(0, 5) for _ in range(count)]
    total = sum(parts) + rng.choice([0, 0, 0, 1, 2])
    return [Fraction(part, total or 1) for part in parts]


def edges_of(rng, size, with_epsilon):
    """Returns the expressions of the edges of a component, by their pairs."""
    edges = {}
    for i in range(size):
        others = [j for j in range(size) if j != i]
        if not others or rng.random() < 0.1:
            continue
        small = rng.choice(others) if with_epsilon and rng.random() < 0.6 else None
        for j, part in zip(others, shares(rng, len(others))):
            if small is None:
                edges[i, j] = str(part)
            elif j != small:
                edges[i, j] = rng.choice([f"{part}*(1-\\epsilon)", f"{part}-{part}\\epsilon", f"{part}(1-2*\\epsilon+\\epsilon^2)"])
            else:
                edges[i, j] = rng.choice(["\\epsilon", "1/2*\\epsilon", "\\epsilon^2", "1/3\\epsilon*\\epsilon"])
    return edges


class Made:
    """A case, as the bytes of a text or of a sheet, with the words that say so."""

    def __init__(self, rng, number, most):
        self.size = rng.randrange(1, most + 1)
        self.names = [f"H{i + 1}" for i in range(self.size)]
        self.alpha = rng.choice(["1/20", "0.025", "0.1", "1"])
        scale = rng.choice([100, 1000, 1000, 10000])
        self.p = [Fraction(rng.choice([0, *range(1, 40)]), scale) for _ in self.names]
        count = rng.choice([1, 1, 2, 3])
        parts = shares(rng, count) if count > 1 or rng.random() < 0.2 else [Fraction(1)]
        self.components = [(share, shares(rng, self.size), edges_of(rng, self.size, number % 3 == 0)) for share in parts]
        self.form = rng.choice(["csv", "csv", "json", *["text"] * 7] if parts == [1] else ["json", *["text"] * 7])

    def words(self):
        return {"csv": ["--form", "csv", "--alpha", self.alpha], "json": ["--form", "json"], "text": []}[self.form]

    def sheet(self):
        _, weights, edges = self.components[0]
        rows = [["hypothesis", "weight", "p", *self.names]]
        for i, name in enumerate(self.names):
            rows.append([name, weights[i], self.p[i], *(edges.get((i, j), "0") for j in range(self.size))])
        return "".join(",".join(map(str, row)) + "\n" for row in rows)

    def text(self):
        lines = [f"alpha {self.alpha}", " ".join(["hypotheses", *self.names]), " ".join(["p", *map(str, self.p)])]
        for share, weights, edges in self.components:
            lines += [f"component {share}"] if self.components[1:] or share != 1 else []
            lines.append(" ".join(["weights", *map(str, weights)]))
            lines += [f"edge {self.names[i]} {self.names[j]} {edge}" for (i, j), edge in edges.items()]
        return "\n".join(lines) + "\n"

    def json(self):
        components = [
            {"share": str(share), "weights": [*map(str, weights)],
             "edges": [{"from": self.names[i], "to": self.names[j], "weight": edge} for (i, j), edge in edges.items()]}
            for share, weights, edges in self.components
        ]
        return json.dumps({"p": [*map(str, self.p)], "alpha": self.alpha, "hypotheses": self.names, "components": components})

    def bytes(self):
        return {"csv": self.sheet, "json": self.json, "text": self.text}[self.form]().encode()


class Staged(Made):
    """A case with stages. Those of a damaged one break a rule of stages, or a line of them is not allowed."""

    def __init__(self, rng, number):
        super().__init__(rng, number, 5)
        self.form = rng.choice(["json", "text", "text"])
        self.count = rng.randrange(1, 4)
        self.spends = [self.fractions(rng) if rng.random() < 0.6 else self.steps(rng) for _ in self.names]
        looks = [(k, t) for k in range(self.size) for t in range(1, self.count + 1)]
        looks = rng.sample(looks, rng.randrange(0, len(looks) + 1))
        self.arrivals = [(k, t, Fraction(rng.choice([0, 1, 2, 5, 10, 20, 40, 200]), 1000)) for k, t in looks]
        if rng.random() < 0.1:
            self.damage(rng)

    def fractions(self, rng):
        return [(None, shares(rng, self.count))]

    def steps(self, rng):
        """Returns one or two steps, whose levels do not fall from one to the next."""
        alpha, first = Fraction(self.alpha), rng.choice([Fraction(1, 12), Fraction(1, 4), Fraction(1, 2)])
        low = [first * alpha * part for part in shares(rng, self.count)]
        steps = [(first, low), (first * 2, [x * rng.choice([1, 2]) for x in low])]
        return steps[: rng.choice([1, 2])]

    def damage(self, rng):
        kind, k = rng.randrange(7), rng.randrange(self.size)
        least, numbers = self.spends[k][0]
        if kind == 0:
            self.arrivals.append((k, rng.choice([0, self.count + 1]), Fraction(1, 2)))
        elif kind == 1:
            self.arrivals += [(k, 1, Fraction(1, 9)), (k, 1, Fraction(1, 8))]
        elif kind == 2:
            self.arrivals = [(k, 1, rng.choice([Fraction(2), Fraction(-1, 9)]))]
        elif kind == 3:
            numbers.append(Fraction(0))
        elif kind == 4:
            numbers[0] = rng.choice([Fraction(-1, 100), Fraction(101, 100)])
        elif kind == 5 and least is not None:
            self.spends[k].append((rng.choice([least, Fraction(0), Fraction(3, 2)]), [*numbers]))
        else:
            self.count = 0

    def text(self):
        lines = [line for line in super().text().split("\n")[:-1] if line[:2] != "p "] + [f"stages {self.count}"]
        for name, steps in zip(self.names, self.spends):
            for least, numbers in steps:
                lines.append(" ".join([f"spend {name}" if least is None else f"table {name} {least}", *map(str, numbers)]))
        lines += [f"arrive {self.names[k]} {t} {p}" for k, t, p in self.arrivals]
        return "\n".join(lines) + "\n"

    def json(self):
        def spend(steps):
            if steps[0][0] is None:
                return [*map(str, steps[0][1])]
            return {"steps": [{"from": str(least), "levels": [*map(str, numbers)]} for least, numbers in steps]}

        value = json.loads(super().json())
        del value["p"]
        arrivals = [{"hypothesis": self.names[k], "stage": t, "p": str(p)} for k, t, p in self.arrivals]
        value["stages"] = {"count": self.count, "spend": [*map(spend, self.spends)], "arrivals": arrivals}
        return json.dumps(value)


# ---- damage


def other_number(rng, lines, text):
    """Returns another number for the place of a number of evidence: one near it, one of another line, or any."""
    kind = rng.randrange(3)
    if kind == 0 and "[" not in text:
        return str(Fraction(text) + Fraction(rng.choice([-1, 1]), rng.choice([3, 60, 1000, 10**12])))
    if kind == 1:
        return rng.choice([line.split(" ")[3] for line in lines if line[:4] in ("flow", "exit")])
    return rng.choice(NUMBERS)


def damaged_lines(rng, lines, names):
    at = rng.randrange(len(lines))
    numbered = [n for n, line in enumerate(lines) if line[:4] in ("flow", "exit")]
    kind = rng.randrange(18)
    if kind > 10 and numbered:
        at = rng.choice(numbered)
        words = lines[at].split(" ")
        words[3] = other_number(rng, lines, words[3])
        lines[at] = " ".join(words)
    elif kind in (0, 1, 2, 5):
        a, b = rng.choice(names), rng.choice(names)
        lines[:] = [re.sub(rf"\b({a}|{b})\b", lambda found: b if found[0] == a else a, line) for line in lines]
    elif kind == 6:
        lines.pop(at)
    elif kind == 7:
        lines.insert(rng.randrange(len(lines) + 1), lines[at])
    elif kind == 8:
        other = rng.randrange(len(lines))
        lines[at], lines[other] = lines[other], lines[at]
    elif kind == 9:
        words = lines[at].split(" ")
        words[rng.randrange(len(words))] = rng.choice([*names, *WORDS])
        lines[at] = " ".join(words)
    elif kind == 10:
        lines[at] += rng.choice([" ", "\t", "\r", " 1", " #", "\n", "\n# a remark", "\n \t", "\nend"])
    else:
        lines[0] = rng.choice(["evidence 1", "evidence 2", "evidence 3", "evidence"])


def damaged(rng, made, text):
    """Changes the case or the document, and returns the document."""
    if rng.random() < 0.15:
        k = rng.randrange(made.size)
        made.p[k] = rng.choice([Fraction(0), Fraction(1), made.p[k] / 2, min(Fraction(1), made.p[k] * 2), Fraction(1, 100)])
    elif rng.random() < 0.1 and made.size > 1:
        share, weights, edges = rng.choice(made.components)
        weights[0], weights[1] = weights[1], weights[0]
        i = rng.randrange(made.size)
        for pair in [pair for pair in edges if pair[0] == i]:
            edges.pop(pair)
    else:
        lines = text.removesuffix("\n").split("\n")
        damaged_lines(rng, lines, made.names)
        text = "\n".join(lines) + rng.choice(["\n", "\n", "\n", ""])
    return text


# ---- comparisons


def is_refused_for_size(status, text, evidence):
    """Whether the program refuses a number for its size."""
    if status == 3 and (found := re.fullmatch(r"malformed: proof line (\d+): number\n", text)):
        line = evidence.split("\n")[int(found[1]) - 1]
        return any(int(digits) >= 2**127 for digits in re.findall(r"\d+", line))
    return status in (4, 5)


def compare(made, evidence, room, what):
    """Returns what both checkers say of a document: words for the counts, and the disagreement if there is one."""
    case = made.bytes()
    path = os.path.join(room, f"proof-{os.getpid()}")
    with open(path, "w", encoding="latin-1", newline="") as file:
        file.write(evidence)
    ours = run(["check", path, *made.words()], case)
    alpha = made.alpha if made.form == "csv" else None
    WIDEST[:] = 0, 0
    theirs = answer(case, evidence.encode("latin-1"), made.form, alpha)
    names = {0: "yes", 1: "no", 3: "malformed"}
    if is_refused_for_size(*ours, evidence):
        note = "with its note" if WIDEST[0] > 59 or WIDEST[1] > 17 else "without a note"
        return f"{what}: the program refuses a size, the checker says {names.get(theirs[0], theirs[0])} {note}", None
    if ours != tuple(theirs):
        return f"{what}: DISAGREE", f"program {ours}, checker {theirs}\n{case.decode()}{evidence}"
    return f"{what}: both say {names.get(ours[0], ours[0])}", None


def check_one(task):
    """Compares on the case of a number: the document, and a damaged one."""
    seed, number, room, with_damage = task
    rng = random.Random(f"{seed}/{number}")
    made = Made(rng, number, 7)
    status, evidence = run(["evidence", *made.words()], made.bytes())
    if status != 0:
        return [(f"no document: status {status}", None)]
    if number % 4 == 1:
        lines = [line for line in evidence.split("\n") if line[:4] not in ("keep", "exit")]
        evidence = "\n".join(["evidence 1", *lines[1:]])
    found = [compare(made, evidence, room, "document")]
    if with_damage:
        evidence = damaged(rng, made, evidence)
        found.append(compare(made, evidence, room, "damaged"))
    return found


def own_one(task):
    """Compares the documents that make_evidence.py makes for the case of a number."""
    seed, number, room, _ = task
    rng = random.Random(f"{seed}/own/{number}")
    made = Made(rng, number, 7)
    status, evidence = run(["evidence", *made.words()], made.bytes())
    if status:
        return [(f"no document: status {status}", None)]
    report = run(["test", *made.words()], made.bytes())[1]
    case = run(["canon", *made.words()], made.bytes())[1]
    own = "\n".join([*make_evidence.evidence(make_evidence.Case(case)), ""])
    found = [(f"own: {'the same text as' if own == evidence else 'another text than'} the program's", None)]
    if own != "\n".join([*make_evidence.evidence(make_evidence.Case(case), report), ""]):
        found.append(("own: DISAGREE", f"another document with the report\n{case}{report}"))
    for text, what in ((evidence, "the program's document"), (own, "own document")):
        said, disagreement = compare(made, text, room, what)
        found.append((said, disagreement or (None if said.endswith("both say yes") else f"not yes\n{case}{text}")))
    found.append(compare(made, damaged(rng, made, own), room, "own damaged"))
    return found


def decide_one(task):
    """Compares the decision on the case of a number, the weights and bounds of its sets, and the adjusted p-values."""
    seed, number, _, _ = task
    rng = random.Random(f"{seed}/closed/{number}")
    made = Made(rng, number, 6)
    printed = {word: run([word, *made.words()], made.bytes()) for word in ("test", "weights", "bounds")}
    if any(status for status, _ in printed.values()):
        return [(f"closed: the program ends with {' and '.join(str(status) for status, _ in printed.values())}", None)]
    case = staged_case_of(made.bytes(), made.form, made.alpha if made.form == "csv" else None)
    lines = [*closed_test.report(case, True, True, True)]

    def ours(word):
        return [line for line in lines if line.split(" ")[0] == word]

    def compare_lines(what, theirs, wanted, kind):
        if theirs == wanted:
            return f"{what}: the same, {kind}", None
        return f"{what}: DISAGREE", f"{made.bytes().decode()}program {theirs}\nclosed test {wanted}"

    decision, weights, bounds = (text.split("\n") for _, text in printed.values())
    sets = [re.sub(" (not rejected|rejected by .*)$", "", line) for line in ours("set")]
    [rejected] = ours("rejected")
    return [
        compare_lines("closed", [*weights, *(line for line in decision if line.split(" ")[0] == "rejected")],
                      [f"weights {made.size}", *sets, "end", "", rejected], "some rejected" if " " in rejected else "none rejected"),
        compare_lines("adjusted", [line for line in decision if line.split(" ")[0] == "adjusted"], ours("adjusted"),
                      "some not reached" if any("not" in line for line in ours("adjusted")) else "all reached"),
        compare_lines("bounds", bounds, [f"bounds {made.size}", *ours("bound"), "end", ""],
                      "some above 0" if any(line.split(" ")[1] != "0" for line in ours("bound")) else "all 0"),
    ]


def stage_one(task):
    """Compares the decisions after each arrival of the case with stages of a number, or how it is refused."""
    seed, number, _, _ = task
    made = Staged(random.Random(f"{seed}/staged/{number}"), number)
    status, text = run(["stages", *made.words()], made.bytes())
    if status in (4, 5):
        return [(f"staged: the program ends with {status}", None)]
    try:
        lines = [*closed_test.report(staged_case_of(made.bytes(), made.form))]
    except Stop as stop:
        if stop.args == (status, text):
            return [("staged: both refuse it", None)]
        return [("staged: DISAGREE", f"{made.bytes().decode()}program {status} {text}closed test {stop.args}")]
    rejected, wanted = [], []
    for line in text.split("\n"):
        words = line.split(" ")
        if words[0] == "arrive":
            wanted.append(line)
        elif words[0] == "reject":
            rejected.append(words[1])
        if words[0] in ("arrive", "reject"):
            named = " ".join(name for name in made.names if name in rejected)
            wanted[-1] = wanted[-1].split(" rejected")[0] + " rejected" + (" " + named if named else "")
    wanted.append(f"rejected{''.join(' ' + name for name in made.names if name in rejected)}")
    if status or [line for line in lines if line.split(" ")[0] in ("arrive", "rejected")] != wanted:
        return [("staged: DISAGREE", f"{made.bytes().decode()}{text}{lines}")]
    return [(f"staged: the same, {'some' if rejected else 'none'} rejected", None), *[("looks: the same", None)] * len(made.arrivals)]


def safely(task):
    function, *rest = task
    try:
        return rest[1], function(rest)
    except (Stop, subprocess.TimeoutExpired, ValueError, ArithmeticError, LookupError) as error:
        return rest[1], [("DISAGREE: an error", repr(error))]


def count(pool, tasks, counts):
    """Counts what tasks find, and prints each disagreement with the number of its case. Returns how many there are."""
    wrong = 0
    for number, found in pool.imap(safely, tasks, chunksize=16):
        for words, disagreement in found:
            counts[words] += 1
            if disagreement:
                wrong += 1
                print(f"{number}: {words}: {disagreement}", flush=True)
    return wrong


def main():
    global PROGRAM
    parser = argparse.ArgumentParser(description=__doc__, formatter_class=argparse.RawDescriptionHelpFormatter)
    defaults = (("documents", 20000), ("damaged", 20000), ("closed", 5000), ("staged", 5000), ("own", 5000), ("seed", 1), ("jobs", os.cpu_count()))
    for name, default in defaults:
        parser.add_argument(f"--{name}", type=int, default=default)
    parser.add_argument("--program", default=PROGRAM)
    words = parser.parse_args()
    PROGRAM = os.path.abspath(words.program)
    counts = collections.Counter()
    wanted = {"document": words.documents, "damaged": words.damaged}

    def total(what):
        return sum(n for said, n in counts.items() if said.startswith(what + ":"))

    with tempfile.TemporaryDirectory() as room, multiprocessing.Pool(words.jobs) as pool:
        done = wrong = 0
        while (missing := max(least - total(what) for what, least in wanted.items())) > 0:
            tasks = [(check_one, words.seed, n, room, total("damaged") < words.damaged) for n in range(done, done + min(missing, 1000))]
            wrong += count(pool, tasks, counts)
            done += len(tasks)
        wrong += count(pool, [(decide_one, words.seed, n, room, False) for n in range(words.closed)], counts)
        wrong += count(pool, [(stage_one, words.seed, n, room, False) for n in range(words.staged)], counts)
        done = 0
        while (missing := words.own - total("own document")) > 0:
            wrong += count(pool, [(own_one, words.seed, n, room, False) for n in range(done, done + missing)], counts)
            done += missing
    for said, n in sorted(counts.items()):
        print(f"{n:8} {said}")
    print(f"{wrong} disagreements")
    sys.exit(1 if wrong else 0)


if __name__ == "__main__":
    main()
