#!/usr/bin/env python3
"""Compares pages of decisions with tools/check_page.py, on cases that it makes from a seed.

    bench/pages.py [--pages N] [--altered M] [--seed S] [--jobs J] [--program PATH]

Of each of N cases the page has to be one to which check_page.py says yes. The cases are those of checkers.py: texts, sheets and JSON, with
epsilon, several graphs or stages; some have labels, some another priority. Half of the pages are by the C library, if there is one, and
the others by the program. Of M pages a copy is altered, and then the answer has to be no, or that it is not a page:

- one number, one word, one row of a table, the headline, or a digit of a digest is another one;
- of a picture an arrow is missing, a circle has the other colour, two texts or two circles have each other's place, an element is elsewhere,
  or a part is cut off;
- the form is another one: something before or after the page, hidden, struck through, linked, marked, or added to the style.

In the text that was given, an alteration that leaves the case the same is counted apart. What no case implies is altered on copies of the
other pages: a digit of the protocol, the data cut or the author, of the name of the file, or of what is said of the program. Then the
answer has to name it as not checked, or be no.

Prints what came how often and each page that is answered otherwise, and ends with status 1 if there is one.
"""
import argparse
import collections
import multiprocessing
import os
import random
import re
import subprocess
import sys
import tempfile

import checkers

HERE = os.path.dirname(os.path.abspath(__file__))
sys.path[:0] = [os.path.join(HERE, "..", name) for name in ("python", "tools")]
import check_page  # noqa: E402
from welungad import _calls, _page, _scripts  # noqa: E402
from welungad._refusals import BadAnswer  # noqa: E402

KINDS = ("number", "word", "row", "headline", "digest", "picture", "form")
LABELS = ["Primary", "Mortality at five years in all patients", "B", "HbA1c, 5 mg", "HbA1c, 10 mg against placebo at week 26", "Safety <1>", "Z"]
OTHER_WORDS = ["not", "rejected", "above", "at", "kept", "none", "yes", "no", "H1", "H2", "each", "half"]
FACTS = _page.Facts("Protocol 2026/85", "2026-06-30", None)
TEXT = re.compile(r"(?<=>)[^<]+")
# What no case implies, and the beginning of the line by which the answer names it.
STATED = [(re.compile('<dl class="facts">.*?</dl>', re.DOTALL), "not checked: the protocol, the data cut and the author"),
          (re.compile("<dt>Release of the C library</dt><dd>.*?</dd>", re.DOTALL), "not checked: which program or library answered"),
          (re.compile("<dt>What it was built from</dt><dd>.*?</dd>", re.DOTALL), "not checked: which program or library answered"),
          (re.compile("(?<=&lt; &#x27;)a trial 1.txt"), "not checked: the protocol, the data cut and the author, the name of the file")]
# How the form of a page is altered: a pattern that is found once or more, and what it becomes at one place.
FORMS = [
    ("<main>", "<p>No hypothesis is rejected.</p>\n<main>"), ("</main>", "</main>\n<p>No hypothesis is rejected.</p>"), ("</html>\n", "</html>\nNo\n"),
    ("</style>", "main { display: none }</style>"), ("</style>", "td::after { content: ' not' }</style>"), ("</style>", ".answer { color: #fff }</style>"),
    ("</head>", '<meta http-equiv="refresh" content="0; url=a">\n</head>'), ("</head>", '<link rel="stylesheet" href="a.css">\n</head>'),
    ("<(p|td|tr|h2|table|figure|text)>", r"<\1 hidden>"), ("<(p|td|tr|h2|table|figure|text)([ >])", r'<\1 style="display:none"\2'),
    ("<(p|td|tr|h2|th)([ >])", r'<\1 title="not rejected"\2'), ("<(td|strong)>([^<]+)", r"<\1><s>\2</s>"), ("<td>([^<]+)", r'<td><a href="https://a.b">\1</a>'),
    ("<(td|strong)>([^<]+)", r"<\1><mark>\2</mark>"), ("<h2", "<script>a()</script>\n<h2"), ("<h2", "<!-- a -->\n<h2"), ("<h2", "No hypothesis is rejected.\n<h2"),
    ("<h2", "<details><summary>More</summary><pre>not rejected</pre></details>\n<h2"), ('<tr class="rejected">', "<tr>"), ("<tr>", '<tr class="rejected">'),
]


class Case:
    """A case of a number, and how its page is made."""

    def __init__(self, seed, number):
        self.rng = random.Random(f"{seed}/pages/{number}")
        self.by_library = number % 2 == 1 and _calls.has_library()
        self.made = checkers.Staged(self.rng, number) if number % 4 == 3 else checkers.Made(self.rng, number, 6 if number % 10 else 8)
        staged = isinstance(self.made, checkers.Staged)
        self.how = {"form": self.made.form, "alpha": self.made.alpha if self.made.form == "csv" else None, "file": "a trial 1.txt",
                    "labels": self.rng.sample(LABELS, self.made.size) if self.made.size <= 6 and self.rng.random() < 0.4 else None,
                    "priority": None if staged else self.rng.choice([None, None, "last", "ratio"])}

    def page(self, program):
        calls, about = _scripts._calls(None if self.by_library else program)
        return _page.document(self.made.bytes(), calls, program=about, facts=FACTS, **self.how)


def stated(page):
    """What no case implies: the places of each such part of a page, and how the answer names it."""
    return [(found.start(), found.end(), named) for pattern, named in STATED for found in pattern.finditer(page)]


def regions(page):
    """The places of the texts of a page after its title."""
    return [found for found in TEXT.finditer(page, page.index('<p class="answer">'), page.index("</footer>")) if found[0].strip()]


def another(rng, text, choices):
    return rng.choice([it for it in choices if it != text])


def exchanged(page, one, other):
    """The page in which the texts of two matches have each other's place."""
    one, other = sorted((one, other), key=lambda it: it.start())
    return page[: one.start()] + other[0] + page[one.end(): other.start()] + one[0] + page[other.end():]


def altered_picture(rng, page):
    """The page with one alteration of a picture, and what was altered; nothing if it has no picture."""
    pictures = [found.span() for found in re.finditer("<svg .*?</svg>", page, re.DOTALL)]
    if not pictures:
        return None

    def all_of(pattern, place):
        return [*re.compile(pattern).finditer(page, *place)]

    while True:
        what, place = rng.choice(["arrow", "colour", "texts", "circles", "place", "cut"]), rng.choice(pictures)
        found = all_of({"arrow": "<path [^>]*marker-end[^>]*/>\n", "colour": '(?<=r="40" fill=")#[a-f0-9]+', "texts": "(?<=>)[^<\n]+(?=</text>)",
                        "circles": '(?<=<circle )cx="[^"]*" cy="[^"]*"(?= r="40")', "place": r'(?<=[" ,MQ])-?\d+\.\d(?=[" ,])',
                        "cut": r'(?<=viewBox=")\S+ \S+ \S+ \S+(?=" width)'}[what], place)
        if not found:
            continue
        it = rng.choice(found)
        before, after = page[: it.start()], page[it.end():]
        if what in ("texts", "circles"):
            others = [other for other in found if other[0] != it[0]]
            if others:
                other = rng.choice(others)
                return exchanged(page, it, other), f"{it[0]!r} and {other[0]!r} are exchanged"
        else:
            new = {"arrow": "", "colour": "#fff" if it[0] != "#fff" else "#cfe3cf", "place": "", "cut": ""}[what]
            if what == "place":
                new = f"{float(it[0]) + rng.choice([-150, -20, -1, 1, 20, 150]):.1f}"
            if what == "cut":
                numbers, n = it[0].split(" "), rng.randrange(4)
                numbers[n] = str(int(numbers[n]) // 2 if n > 1 else int(numbers[n]) + 60)
                new = " ".join(numbers)
            return before + new + after, f"of a picture, {it[0]!r} is {new!r}"


def altered_form(rng, page):
    """The page with another form at one place, and what was altered."""
    while True:
        pattern, new = rng.choice(FORMS)
        found = [*re.finditer(pattern, page)]
        if found:
            it = rng.choice(found)
            return page[: it.start()] + it.expand(new) + page[it.end():], f"{it[0]!r} is {it.expand(new)!r}"


def altered(rng, page, kind):
    """The page with one alteration of a kind, and what was altered."""
    if kind == "picture":
        return altered_picture(rng, page) or altered_form(rng, page)
    if kind == "form":
        return altered_form(rng, page)
    if kind == "row":
        rows = [found for found in re.finditer(r"<tr(?: class=\"rejected\")?><th scope=\"row\">.*?</tr>\n?", page, re.DOTALL)]
        row = rng.choice(rows)
        twice = rng.random() < 0.5
        return page[: row.start()] + (row[0] * 2 if twice else "") + page[row.end():], "a row twice" if twice else "a row less"
    places = regions(page)
    if kind == "headline":
        end = page.index("</p>", page.index('<p class="answer">'))
        places = [it for it in places if it.start() < end]
    pattern = {"number": r"\d+", "word": r"[A-Za-z]{2,}", "headline": r"\d+|[A-Za-z]+", "digest": r"\b[0-9a-f]{64}\b"}[kind]
    others = stated(page)
    found = [(place, it) for place in places for it in re.finditer(pattern, place[0])
             if not any(start <= place.start() + it.start() < end for start, end, _ in others)]
    place, it = rng.choice(found)
    if kind == "digest":
        at = rng.randrange(64)
        new = it[0][:at] + another(rng, it[0][at], "0123456789abcdef") + it[0][at + 1:]
    elif it[0].isdigit():
        new = str(int(it[0]) + rng.choice([1, 2, 10]))
    else:
        new = another(rng, it[0], OTHER_WORDS)
    start, end = place.start() + it.start(), place.start() + it.end()
    return page[:start] + new + page[end:], f"{it[0]!r} is {new!r}"


def is_given(page, other):
    """Whether two pages differ in the text that was given alone."""
    cut = re.compile(r'(?s)(<h2 id="given">).*?(<h2 id="case">)')
    return cut.sub(r"\1\2", page) == cut.sub(r"\1\2", other)


def said_of(page):
    """The status and the answer on what may be a page."""
    try:
        return check_page.answer(page)
    except check_page.NotAPage as error:
        return 2, str(error)


def stated_otherwise(rng, page):
    """What is said of a page of which a digit of what no case implies is another one."""
    start, end, named = rng.choice(stated(page))
    found = [*re.compile("[0-9]").finditer(page, start, end)]
    if not found:
        return []
    at = rng.choice(found).start()
    status, said = said_of(page[:at] + another(rng, page[at], "0123456789") + page[at + 1:])
    right = status == 1 or f"\n{named}" in said
    return [(f"what no case implies: {'WRONG' if not right else 'no' if status else 'named as not checked'}", None if right else f"{page[at - 40 : at + 40]}\n{said}")]


def try_one(task):
    """Returns what is said of the page of a number and of an altered copy, with the page if that is wrong."""
    seed, number, program, alters = task
    case = Case(seed, number)
    try:
        status, page = case.page(program)
    except (BadAnswer, ValueError) as error:
        return [("there is no page", f"{case.made.bytes().decode()}{error}")]
    if status:
        said = check_page.answer(page)
        return [(f"refused with {status}: the answer is {said[0]}", None if said[0] == (2 if status in (4, 5) else 0) else f"{page}{said}")]
    kind = "with stages" if isinstance(case.made, checkers.Staged) else case.made.form
    said = check_page.answer(page)
    found = [(f"page, {kind}: {'yes' if said[0] == 0 else 'WRONG'}", None if said[0] == 0 else f"{case.made.bytes().decode()}{said[1]}")]
    if alters:
        kind = KINDS[number % len(KINDS)]
        other, what = altered(case.rng, page, kind)
        said = said_of(other)
        if said[0] == 0 and is_given(page, other):
            found.append((f"altered, {kind}: the same case in the text that was given", None))
        else:
            found.append((f"altered, {kind}: {'no' if said[0] else 'WRONG'}", None if said[0] else f"{what}\n{case.made.bytes().decode()}"))
    else:
        found += stated_otherwise(case.rng, page)
    return found


def main():
    parser = argparse.ArgumentParser(description=__doc__, formatter_class=argparse.RawDescriptionHelpFormatter)
    for name, default in (("pages", 500), ("altered", 200), ("seed", 1), ("jobs", os.cpu_count())):
        parser.add_argument(f"--{name}", type=int, default=default)
    parser.add_argument("--program", default=checkers.PROGRAM)
    words = parser.parse_args()
    program, counts, wrong, number = os.path.abspath(words.program), collections.Counter(), 0, 0

    def total(what):
        return sum(n for said, n in counts.items() if said.startswith(what))

    with multiprocessing.Pool(words.jobs) as pool:
        while (missing := words.pages - total("page,")) > 0:
            tasks = [(words.seed, n, program, total("altered,") + n - number < words.altered) for n in range(number, number + missing)]
            for n, found in enumerate(pool.imap(try_one, tasks), number):
                if n % 50 == 49:
                    print(f"{n + 1} cases, {sum(counts.values())} answers, {wrong} wrong", file=sys.stderr, flush=True)
                for said, what in found:
                    counts[said] += 1
                    if what:
                        wrong += 1
                        print(f"{n}: {said}: {what}", flush=True)
            number += missing
    for said, n in sorted(counts.items()):
        print(f"{n:8} {said}")
    print(f"{wrong} wrong")
    sys.exit(1 if wrong else 0)


if __name__ == "__main__":
    main()
