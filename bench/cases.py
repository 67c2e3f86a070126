#!/usr/bin/env python3
"""Writes the cases of the benchmark into a folder.

full-N.txt     N hypotheses of weight 1/N, with an edge of 1/(N-1) from each to each other; all are rejected
parallel-N.txt improved parallel gatekeeping with N primary and N secondary hypotheses: each primary one has weight 1/N
               and passes 1/N to each secondary one; each secondary one passes (1-\\epsilon)/(N-1) to each other
               secondary one, and \\epsilon to one primary one; 32 are too wide, and of 8 all are
               rejected
quarter-N.txt  N hypotheses of weight 1/N in two halves: each passes 1/N to each other one of its half, and each of the first
               half \\epsilon/N to each of the second; all are rejected
lines-N.txt    N MiB of comments, blank lines and edge lines, after a case whose last lines they are
read-KIND.txt  4 MiB of one kind of line after the lines that it needs: edges, arrivals, steps of a table, or one line of
               names. They say more than a case may hold, so that each is refused once it is read
"""
import sys

MIB = 1 << 20


def full(count):
    names = [f"H{i + 1}" for i in range(count)]
    lines = ["alpha 0.05", "hypotheses " + " ".join(names)]
    lines.append("p " + " ".join(f"{i + 1}/100000" for i in range(count)))
    lines.append("weights " + " ".join([f"1/{count}"] * count))
    lines += [f"edge {a} {b} 1/{count - 1}" for a in names for b in names if a != b]
    return "\n".join(lines) + "\n"


def improved_parallel(count):
    first = [f"H{i + 1}" for i in range(count)]
    second = [f"H{count + i + 1}" for i in range(count)]
    lines = ["alpha 0.05", "hypotheses " + " ".join(first + second)]
    lines.append("p " + " ".join(f"{i + 1}/100000" for i in range(2 * count)))
    lines.append("weights " + " ".join([f"1/{count}"] * count + ["0"] * count))
    lines += [f"edge {a} {b} 1/{count}" for a in first for b in second]
    for at, name in enumerate(second):
        lines.append(f"edge {name} {first[at]} \\epsilon")
        lines += [f"edge {name} {other} (1-\\epsilon)/{count - 1}" for other in second if other != name]
    return "\n".join(lines) + "\n"


def quarter(count):
    names = [f"H{i + 1}" for i in range(count)]
    half = count // 2
    lines = ["alpha 0.05", "hypotheses " + " ".join(names)]
    lines.append("p " + " ".join(f"{i + 1}/100000" for i in range(count)))
    lines.append("weights " + " ".join([f"1/{count}"] * count))
    lines += [f"edge {a} {b} 1/{count}" for a in names[:half] for b in names[:half] if a != b]
    lines += [f"edge {a} {b} 1/{count}*\\epsilon" for a in names[:half] for b in names[half:]]
    lines += [f"edge {a} {b} 1/{count}" for a in names[half:] for b in names[half:] if a != b]
    return "\n".join(lines) + "\n"


def padded(size):
    """Returns a case of 64 hypotheses with a comment and a blank line after each edge, and comments up to the size."""
    head, *edges = full(64).split("\nedge ")
    text = head + "\n" + "".join(f"edge {edge.strip()}\n# a comment behind this edge\n \t\n" for edge in edges)
    comment = "   # a line that says nothing of the case\n"
    return text + comment * ((size - len(text)) // len(comment))


def repeated(line, size):
    return (line + "\n") * (size // (len(line) + 1))


def readings(size):
    """Texts of one kind of line each."""
    head = "alpha 0.05\nhypotheses H1 H2\n"
    graph = "weights 1/2 1/2\n"
    stages = graph + "stages 2\n"
    spends = stages + "spend H1 1/2 1/2\nspend H2 1/2 1/2\n"
    names = "alpha 0.05\nhypotheses" + "".join(f" H{i}" for i in range(1, size // 7)) + "\n"
    return {
        "edges": head + graph + repeated("edge H1 H2 1/2", size),
        "arrivals": head + spends + repeated("arrive H1 1 1/2", size),
        "tables": head + stages + repeated("table H1 1/2 1/4 1/4", size),
        "names": names[: size - 1] + "\n",
    }


def sheets(size):
    """Sheets of one hypothesis and empty records after it, of names of one byte and no row, and of many rows."""
    one = "hypothesis,weight,p,H1\nH1,1,,0\n"
    count = 1440
    rows = [f"N{i},0,," + ",".join(["0"] * count) for i in range(count)]
    return {
        "surplus": one + repeated(",", size - len(one)),
        "header": "hypothesis,weight,p" + ",a" * ((size - 20) // 2) + "\n",
        "rows": "hypothesis,weight,p," + ",".join(f"N{i}" for i in range(count)) + "\n" + "\n".join(rows) + "\n",
    }


folder = sys.argv[1]
for count in (15, 16, 64):
    with open(f"{folder}/full-{count}.txt", "w") as file:
        file.write(full(count))
for count in (8, 32):
    with open(f"{folder}/parallel-{count}.txt", "w") as file:
        file.write(improved_parallel(count))
for count in (16, 32, 64):
    with open(f"{folder}/quarter-{count}.txt", "w") as file:
        file.write(quarter(count))
for mib in (1, 2, 4):
    with open(f"{folder}/lines-{mib}.txt", "w") as file:
        file.write(padded(mib * MIB))
for kind, text in readings(4 * MIB - 1024).items():
    with open(f"{folder}/read-{kind}.txt", "w") as file:
        file.write(text)
for kind, text in sheets(4 * MIB).items():
    with open(f"{folder}/sheet-{kind}.csv", "w") as file:
        file.write(text)
