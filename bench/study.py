#!/usr/bin/env python3
"""Studies whose looks are kept in a file, by the built program.

    bench/study.py [--program PATH] [--seconds S] [--untimed]

Compares the program with statuses, texts and files that were written by hand:

- what is printed of looks, and what is kept;
- which words, cases and commands leave no file;
- which files, locks and rows are refused;
- a hundred looks in mixed order, kept by two runs, and the same in one run in memory;
- a run that is killed.

Then it times the opening of a file with all 768 looks of 64 hypotheses at 12 stages, unless --untimed is given. More than S
seconds (1 by default) is a finding. Prints each finding, and ends with status 1 if there is one. Without a program it ends with 77.
"""
import argparse
import os
import shutil
import signal
import sqlite3
import subprocess
import sys
import tempfile
import time

HERE = os.path.dirname(os.path.abspath(__file__))
PROGRAM = os.path.join(HERE, "..", "crates", "welungad", "out", "welungad")
FINDINGS, COMPARED = [], [0]
TABLE = """CREATE TABLE IF NOT EXISTS looks (place INTEGER PRIMARY KEY, hypothesis INTEGER NOT NULL, stage INTEGER NOT NULL,
p TEXT NOT NULL, UNIQUE (hypothesis, stage))"""
STORE = ["--store", "looks.db"]

# At half the level each stage has 1/80, and at the whole level 1/40.
TWO = """alpha 0.05
hypotheses H1 H2
weights 1/2 1/2
edge H1 H2 1
edge H2 H1 1
stages 2
spend H1 1/2 1/2
spend H2 1/2 1/2
"""
FIRST = "look H1 1 0.02\nlook H2 1 0.03\n"
FIRST_TEXT = "alpha 1/20\nrecords 0\nlook H1 1 1/50\nlook H2 1 3/100\nend\n"
SECOND = "look H1 2 0.01\nshow\n"
SECOND_TEXT = """alpha 1/20
records 2
look H1 2 1/100
reject H1 stage 2 weight 1/2
show looks 3 rejected H1
end
"""
ALL = FIRST + "look H1 1 0.01\nshow\nlook H1 2 0.01\nlook H2 2 0.02\nshow\n"
ALL_TEXT = """alpha 1/20
records 0
look H1 1 1/50
look H2 1 3/100
refused 3: known
show looks 2 rejected
look H1 2 1/100
reject H1 stage 2 weight 1/2
look H2 2 1/50
reject H2 stage 2 weight 1
show looks 4 rejected H1 H2
end
"""
FAULT = (9, "keeper fault\n")


def found(what):
    FINDINGS.append(what)
    print(f"finding: {what}", flush=True)


def run(words, case=TWO):
    """Returns the status and the text of a run in the present folder."""
    done = subprocess.run([PROGRAM, *words], input=case.encode(), stdout=subprocess.PIPE, stderr=subprocess.PIPE, timeout=600)
    if done.stderr:
        found(f"errors are written by {words}: {done.stderr[:80]!r}")
    return done.returncode, done.stdout.decode()


def study(commands, *words, case=TWO):
    with open("looks.txt", "w", encoding="utf-8") as file:
        file.write(commands)
    return run(["study", "looks.txt", *words], case)


def hold(what, got, wanted):
    COMPARED[0] += 1
    if got != wanted:
        found(f"{what}: {repr(got)[:400]} for {repr(wanted)[:400]}")


def anew():
    """Empties the present folder."""
    for name in os.listdir("."):
        shutil.rmtree(name) if os.path.isdir(name) and not os.path.islink(name) else os.remove(name)


def kept(path="looks.db"):
    """Returns the rows of a file, as Python's own SQLite reads them."""
    connection = sqlite3.connect(path)
    try:
        return connection.execute("SELECT hypothesis, stage, p FROM looks ORDER BY place").fetchall()
    finally:
        connection.close()


def write(statements, path="looks.db"):
    connection = sqlite3.connect(path)
    for statement, *values in statements:
        connection.execute(statement, *values)
    connection.commit()
    connection.close()


def row(values, place=None):
    """Returns the statement that puts a row, its values as SQL writes them."""
    if place is None:
        return [f"INSERT INTO looks (hypothesis, stage, p) VALUES ({values})"]
    return [f"INSERT INTO looks (place, hypothesis, stage, p) VALUES ({place}, {values})"]


# ---- runs that go well


def hold_runs():
    anew()
    hold("all looks in memory", study(ALL), (0, ALL_TEXT))
    hold("no looks are left in memory", study(FIRST), (0, FIRST_TEXT))
    hold("files of a run in memory", os.listdir("."), ["looks.txt"])
    hold("a first run", study(FIRST, *STORE), (0, FIRST_TEXT))
    hold("kept by a first run", kept(), [(0, 1, "1/50"), (1, 1, "3/100")])
    hold("a second run", study(SECOND, "--form", "text", "--store=looks.db"), (0, SECOND_TEXT))
    hold("kept by a second run", kept(), [(0, 1, "1/50"), (1, 1, "3/100"), (0, 2, "1/100")])
    third = "alpha 1/20\nrecords 3\nrefused 1: range\nrefused 2: stage\nrefused 3: known\nshow looks 3 rejected H1\nend\n"
    hold("refused looks", study("look H2 2 2\nlook H2 3 1\nlook H1 2 0\nshow\n", *STORE), (0, third))
    hold("kept once", len(kept()), 3)


def hold_file_alone():
    """Holds that a file has all looks without the log beside it, also under a name with a blank."""
    anew()
    study(FIRST, "--store=a study.db")
    os.mkdir("alone")
    shutil.copy("a study.db", "alone/looks.db")
    hold("the file alone", study(SECOND, "--store", "alone/looks.db"), (0, SECOND_TEXT))


def hold_json():
    anew()
    case = run(["canon", "--to", "json"])[1]
    hold("a case in JSON", study(ALL, "--form=json", *STORE, case=case), (0, ALL_TEXT))
    hold("the same file with the text", study("show\n", *STORE)[1].splitlines()[1:3], ["records 4", "show looks 4 rejected H1 H2"])


# ---- what leaves no file


def hold_no_file():
    """Holds that what is refused before the looks are requested makes no file, and reads none."""
    rows = [
        ("a word too many", (FIRST, ["more", *STORE], TWO), (2, "usage: word 3\n")),
        ("the store twice", (FIRST, [*STORE, "--store=other.db"], TWO), (2, "usage: word 5\n")),
        ("no value of the store", (FIRST, ["--store"], TWO), (2, "usage: word 4\n")),
        ("a sheet", (FIRST, [*STORE, "--form", "csv"], TWO), (2, "usage: word 6\n")),
        ("a case that ends", (FIRST, STORE, "alpha 0.05\n"), (3, "malformed: line 2: ended\n")),
        ("another kind of case", (FIRST, STORE, "alpha 0.05\nhypotheses H1\nweights 1\n"), (3, "malformed: kind\n")),
        ("a case with an arrival", (FIRST, STORE, TWO + "arrive H1 1 0.02\n"), (3, "malformed: kind\n")),
        ("a bad command", (FIRST + "hide\n", STORE, TWO), (3, "malformed: commands line 3: unexpected\n")),
        ("an unknown name", ("look H3 1 0\n", STORE, TWO), (3, "malformed: commands line 1: unknown name\n")),
        ("long commands", ("#" + "x" * (1 << 22), STORE, TWO), (4, "limit: commands bytes 4194305\n")),
    ]
    for what, (commands, words, case), wanted in rows:
        anew()
        hold(what, study(commands, *words, case=case), wanted)
        hold(f"files of {what}", os.listdir("."), ["looks.txt"])
    anew()
    hold("no commands", run(["study", "missing.txt", *STORE]), (6, "read fault\n"))
    hold("files of no commands", os.listdir("."), [])
    hold("a folder of commands", run(["study", ".", *STORE]), (6, "read fault\n"))
    hold("the word alone", run(["study"]), (2, "usage: word 2\n"))
    hold("files of the word alone", os.listdir("."), [])


# ---- files, locks and rows that are refused


def hold_files():
    anew()
    with open("looks.db", "w", encoding="utf-8") as file:
        file.write("hypothesis,stage,p\n0,1,1/50\n")
    hold("a text", study(FIRST, *STORE), FAULT)
    with open("looks.db", encoding="utf-8") as file:
        hold("a text stays", file.read(), "hypothesis,stage,p\n0,1,1/50\n")
    for path in [".", "missing/looks.db", "", ":memory:", "file:looks.db"]:
        anew()
        hold(f"a store {path!r}", study(FIRST, f"--store={path}"), FAULT)
        hold(f"files of {path!r}", os.listdir("."), ["looks.txt"])
    anew()
    with open("looks.db", "wb"):
        pass
    hold("an empty file", study(FIRST, *STORE), (0, FIRST_TEXT))
    anew()
    write([["CREATE TABLE others (a)"]])
    hold("a file of another table", study(FIRST, *STORE), (0, FIRST_TEXT))
    anew()
    write([["CREATE TABLE looks (a)"]])
    hold("a table of other columns", study(FIRST, *STORE), FAULT)


def hold_locks():
    anew()
    study(FIRST, *STORE)
    for what, begin in [("a writer", "BEGIN EXCLUSIVE"), ("a reader", "BEGIN")]:
        other = sqlite3.connect("looks.db", isolation_level=None)
        other.execute(begin)
        other.execute("SELECT count(*) FROM looks").fetchall()
        hold(f"a file with {what}", study(SECOND, *STORE), FAULT)
        other.execute("ROLLBACK")
        other.close()
    hold("a file that is free again", study(SECOND, *STORE), (0, SECOND_TEXT))


def hold_rows():
    good = "0, 1, '1/50'"
    told = "alpha 1/20\nrecords 1\nend\n"
    rows = [
        ([good], (0, told)),
        (["0, 'abc', '1/50'"], FAULT),
        (["0, 1.5, '1/50'"], FAULT),
        (["'H1', 1, '1/50'"], FAULT),
        (["0, 1, x'312F3530'"], FAULT),
        (["0, 1, '2/100'"], FAULT),
        (["0, 1, '0.02'"], FAULT),
        (["0, 1, '1/50 '"], FAULT),
        (["0, 1, ''"], FAULT),
        (["-1, 1, '1/50'"], FAULT),
        (["4294967296, 1, '1/50'"], FAULT),
        (["0, 1, '-1/50'"], (3, "malformed: record 1\n")),
        (["0, 0, '1/50'"], (3, "malformed: record 1\n")),
        (["0, 3, '1/50'"], (3, "malformed: record 1\n")),
        ([good, "2, 1, '1/50'"], (3, "malformed: record 2\n")),
        ([good, "4294967295, 1, '1/50'"], (3, "malformed: record 2\n")),
        ([good, "1, '12', '1/50'"], (3, "malformed: record 2\n")),
        ([good, "1, 1, 7"], (3, "malformed: record 2\n")),
        (["0, 3, '1/50'", "0, 1, '2/100'"], FAULT),
    ]
    for values, wanted in rows:
        anew()
        write([[TABLE], *map(row, values)])
        hold(f"rows {values}", study("", *STORE), wanted)
        hold(f"rows {values} stay", len(kept()), len(values))
    anew()
    write([[TABLE], row("0, 3, '1/50'", 9), row(good, 4)])
    hold("rows by their places", study("", *STORE), (3, "malformed: record 2\n"))
    anew()
    write([[TABLE.replace(", UNIQUE (hypothesis, stage)", "")], row(good), row(good)])
    hold("a row that comes twice", study("", *STORE), (3, "malformed: record 2\n"))
    anew()
    study(FIRST, *STORE)
    one = "alpha 0.05\nhypotheses H1\nweights 1\nstages 1\nspend H1 1\n"
    hold("the file of another case", study("", *STORE, case=one), (3, "malformed: record 2\n"))


# ---- many looks


def full(count, stages):
    """Returns a case of hypotheses of equal weight with equal edges between all, which spend equal parts at each stage."""
    names = [f"H{i + 1}" for i in range(count)]
    lines = ["alpha 0.05", "hypotheses " + " ".join(names), "weights " + " ".join([f"1/{count}"] * count)]
    lines += [f"edge {a} {b} 1/{count - 1}" for a in names for b in names if a != b]
    lines += [f"stages {stages}", *(f"spend {name} " + " ".join([f"1/{stages}"] * stages) for name in names)]
    return "\n".join(lines) + "\n"


def mixed(count, stages, step, p):
    """Returns all looks, as hypothesis from 0, stage and value, each the same number of places after the one before."""
    places = [at * step % (count * stages) for at in range(count * stages)]
    return [(place // stages, place % stages + 1, p(at)) for at, place in enumerate(places)]


def commands_of(looks):
    return "".join(f"look H{hypothesis + 1} {stage} {p}\n" for hypothesis, stage, p in looks)


def hold_hundred():
    """Holds two runs that keep a hundred looks in a file to what one run in memory prints."""
    anew()
    case = full(10, 10)
    looks = mixed(10, 10, 37, lambda at: "1/32768" if at % 40 == 5 else f"{2 * at + 1}/512")
    whole = study(commands_of(looks) + "show\n", case=case)
    hold("a hundred looks in memory", (whole[0], whole[1].splitlines()[:3]), (0, ["alpha 1/20", "records 0", "look H1 1 1/512"]))
    first = study(commands_of(looks[:61]), *STORE, case=case)
    second = study(commands_of(looks[61:]) + "show\n", *STORE, case=case)
    lines = [part[1].splitlines() for part in (first, second)]
    hold("records of the second run", lines[1][:2], ["alpha 1/20", "records 61"])
    hold("two runs", lines[0][:-1] + lines[1][2:], whole[1].splitlines())
    hold("a hundred rows", kept(), looks)
    if not any(line.startswith("reject ") for line in lines[0]) or not any(line.startswith("reject ") for line in lines[1]):
        found("nothing is rejected by one of two runs")


def log_size():
    """Returns the size of the log beside the file."""
    return os.path.getsize("looks.db-wal") if os.path.exists("looks.db-wal") else 0


def hold_killed():
    """Holds that a run that is killed keeps the looks that it has taken, and that they are the first ones."""
    case = full(12, 12)
    looks = mixed(12, 12, 35, lambda at: f"{2 * at + 1}/512")
    for size in (1, 40_000, 400_000):
        anew()
        with open("looks.txt", "w", encoding="utf-8") as file:
            file.write(commands_of(looks))
        with open("case.txt", "w", encoding="utf-8") as file:
            file.write(case)
        with open("case.txt", encoding="utf-8") as file:
            words = [PROGRAM, "study", "looks.txt", *STORE]
            running = subprocess.Popen(words, stdin=file, stdout=subprocess.DEVNULL)
            while running.poll() is None and log_size() < size:
                time.sleep(0.001)
            running.send_signal(signal.SIGKILL)
            running.wait()
        status, text = study("show\n", *STORE, case=case)
        rows = kept() if status == 0 else []
        hold(f"killed at a log of {size}", (status, text.splitlines()[1:2]), (0, [f"records {len(rows)}"]))
        hold(f"kept by a run killed at a log of {size}", rows, looks[: len(rows)])
        print(f"killed at a log of {size} bytes: {len(rows)} looks of {len(looks)} kept", flush=True)


def timed(action):
    start = time.monotonic()
    answer = action()
    return time.monotonic() - start, answer


def hold_speed(most):
    """Times the opening of a file with all looks that there can be: of each kind the least of five times."""
    case = full(64, 12)
    names = " ".join(f"H{i + 1}" for i in range(64))
    kinds = {
        "none rejected": (lambda at: f"{2 * at + 1}/2048", "show looks 768 rejected"),
        "all rejected": (lambda at: f"{2 * at + 1}/268435456", f"show looks 768 rejected {names}"),
        "rejected late": (lambda at: f"{1537 - 2 * at}/16777216", f"show looks 768 rejected {names}"),
    }
    for kind, (p, line) in kinds.items():
        anew()
        looks = mixed(64, 12, 385, p)
        write([[TABLE], *(["INSERT INTO looks (hypothesis, stage, p) VALUES (?, ?, ?)", look] for look in looks)])
        wanted = (0, f"alpha 1/20\nrecords 768\n{line}\nend\n")
        times = []
        for _ in range(5):
            seconds, answer = timed(lambda: study("show\n", *STORE, case=case))
            hold(f"768 looks, {kind}", answer, wanted)
            times.append(seconds)
        alone, _ = timed(lambda: study(commands_of(looks) + "show\n", case=case))
        print(f"768 looks, {kind}: opened in {min(times):.3f} s; taken in memory in {alone:.3f} s", flush=True)
        if min(times) > most:
            found(f"768 looks, {kind}, take {min(times):.3f} s to open")
    anew()
    seconds, answer = timed(lambda: study(commands_of(looks) + "show\n", *STORE, case=case))
    hold("768 looks into a file", (answer[0], len(kept())), (0, 768))
    print(f"768 looks: kept in a file in {seconds:.3f} s")


def main():
    global PROGRAM
    words = argparse.ArgumentParser(description=__doc__, formatter_class=argparse.RawDescriptionHelpFormatter)
    words.add_argument("--program", default=PROGRAM)
    words.add_argument("--seconds", type=float, default=1)
    words.add_argument("--untimed", action="store_true")
    given = words.parse_args()
    PROGRAM = os.path.abspath(given.program)
    if not os.access(PROGRAM, os.X_OK):
        print("bench/study.py: skipped, since this is missing: the built program")
        sys.exit(77)
    with tempfile.TemporaryDirectory() as folder:
        os.chdir(folder)
        for part in (hold_runs, hold_file_alone, hold_json, hold_no_file, hold_files, hold_locks, hold_rows, hold_hundred, hold_killed):
            part()
        if not given.untimed:
            hold_speed(given.seconds)
        os.chdir(HERE)
    print(f"{COMPARED[0]} comparisons, {len(FINDINGS)} findings")
    sys.exit(1 if FINDINGS else 0)


main()
