#!/usr/bin/env python3
"""Looks for public functions of which no test would notice that they always return out-of-memory. A contract cannot forbid
such a body, since nothing promises that there is memory. So a test has to refuse it.

    bench/wants.py [--jobs N] [--room FOLDER] [--of NAME ..] [--by NAME ..] [--list]

    --jobs N       builds and runs at a time (1)
    --room FOLDER  the folder of the copy of the repository; it is kept, and what is built there is used again (by default a
                   folder of its own, which is removed at the end)
    --of NAME ..   only the functions of these crates (all)
    --by NAME ..   only the tests of these crates, in this order (all that have tests)
    --list         only lists the functions

The script works on a copy of the repository. A switch is put at the beginning of each public function whose result is
out-of-memory or has it among its errors, and of each such method of a public trait that a type of the repository has:
`if wants::refused(N) { return Err(NoMemory); }`. The crate `wants` is in the copy alone. `rt try --test` builds the tests of
a crate once, with everything below it, and `rt try` the program acceptance. Then they are run with one switch on after the
other, those tests alone that come to it. A function is tried first with the tests of its own crate and of its layer (the
first crate of tests that uses it). Then it is tried with acceptance, and then with all that use it, nearest first, until a
test fails. Nothing is proved.

Prints a line for each function, and counts for each crate at the end:

    refused NAME by CRATE (TEST)
    passes NAME (tests that come to it, or none)
    not compiled NAME: REASON

After `#` it prints what is built. Ends with status 1 if a function passes or is not compiled. Needs rt, cc and Linux, and 40
to 90 seconds of two processors for each crate that has tests; `nice` is used.
"""
import argparse
import concurrent.futures
import hashlib
import os
import re
import shutil
import subprocess
import sys
import tempfile
import threading

TOP = os.path.join(os.path.dirname(os.path.abspath(__file__)), "..")
# The longest run of a test, also on a machine that has other work.
SECONDS = 300
# A table of acceptance, which a build with checks runs slowly.
TABLE_SECONDS = 600

# A program that prints which runs of its tables end otherwise.
ACCEPTANCE = ("acceptance",)

LIBRARY = """//! The switches of a copy.
#![tactic(auto)]

unsafe extern "C" {
    safe fn wants_refused(place: u32) -> u32;
}

/// Whether this switch is on.
pub fn refused(place: u32) -> bool {
    wants_refused(place) == 1
}
"""

# Reads which switch is on from its environment, which `rt try` leaves empty; notes each switch that a test comes to, and
# keeps the program that `rt try` would remove.
CODE = r"""
#include <fcntl.h>
#include <stdio.h>
#include <stdlib.h>
#include <string.h>
#include <sys/mman.h>
#include <sys/stat.h>
#include <unistd.h>

static long chosen = -1;
static unsigned char *seen;

static void begin(void) {
    char words[4096] = {0}, path[4200], part[4200];
    const char *on = getenv("WANTS_REFUSED");
    seen = calloc(COUNT, 1);
    if (on) {
        chosen = atol(on);
        return;
    }
    FILE *from = fopen("/proc/self/cmdline", "rb");
    size_t length = fread(words, 1, sizeof words - 1, from);
    fclose(from);
    const char *program = 0, *test = 0;
    for (char *word = words; word < words + length; word += strlen(word) + 1) {
        size_t n = strlen(word);
        if (program && !test) test = word;
        if (n > 8 && !strcmp(word + n - 8, "/program")) program = word;
    }
    if (!program || !test) return;
    snprintf(path, sizeof path, "%s/seen-%s", ROOM, test);
    int file = open(path, O_RDWR | O_CREAT, 0644);
    if (file >= 0 && !ftruncate(file, COUNT)) seen = mmap(0, COUNT, PROT_READ | PROT_WRITE, MAP_SHARED, file, 0);
    snprintf(path, sizeof path, "%s/program", ROOM);
    if (access(path, F_OK)) {
        static char bytes[1 << 16];
        size_t n;
        snprintf(part, sizeof part, "%s/part-%d", ROOM, (int)getpid());
        FILE *to = fopen(part, "wb");
        from = fopen(program, "rb");
        while ((n = fread(bytes, 1, sizeof bytes, from)) > 0) fwrite(bytes, 1, n, to);
        fclose(from);
        fclose(to);
        chmod(part, 0755);
        snprintf(path, sizeof path, "%s/words", ROOM);
        to = fopen(path, "wb");
        fwrite(words, 1, program - words, to);
        fclose(to);
        snprintf(path, sizeof path, "%s/program", ROOM);
        rename(part, path);
    }
}

unsigned wants_refused(unsigned place) {
    if (!seen) begin();
    if (place < COUNT) seen[place] = 1;
    return chosen == (long)place;
}
"""

# What out-of-memory is if the error is not an enum with `NoMemory`.
OTHERS = {
    "NoMemory": "NoMemory",
    "AllocError": "AllocError",
    "Refused": "Refused { names: field_core::List::new(alloc), fault: crate::CaseFault::NoMemory }",
}


# ---- the source


def skip_space(text, at):
    """Returns the place after blanks and comments."""
    while True:
        found = re.compile(r"\s+|//[^\n]*").match(text, at)
        if not found:
            return at
        at = found.end()


# a string or a byte or letter
QUOTED = re.compile(r'"(?:[^"\\]|\\.)*"|\'(?:[^\\\']|\\[^\']+|\\\')\'', re.S)


def skip_brackets(text, at):
    """Returns the place after the bracket at a place and all that it holds."""
    depth = 0
    while True:
        if text.startswith("//", at):
            at = text.index("\n", at)
        quoted = QUOTED.match(text, at)
        if quoted:
            at = quoted.end()
            continue
        if text[at] in "([{":
            depth += 1
        elif text[at] in ")]}":
            depth -= 1
            if not depth:
                return at + 1
        at += 1


def skip_parameters(text, at):
    """Returns the place after the type parameters and the parameters of a function whose name ends at a place."""
    depth = 0
    while depth or text[at] != "(":
        depth += text[at] == "<"
        depth -= text[at] == ">" and text[at - 1] != "-"
        at += 1
    return skip_brackets(text, at)


def body_of(text, at):
    """Returns the type of the result of the function whose parameters end at a place, and the place after the opening brace of its
    body; no place for a method without body."""
    at = skip_space(text, at)
    begun, result = at, None
    while True:
        at = skip_space(text, at)
        if text[at] in "{;":
            words = text[begun:at]
            if result is None:
                result = words
            if text[at] == ";":
                return result, None
            if not re.match(r"\s*(ensures|requires|decreases|ghost|captures)\b", words):
                return result, at + 1
            at = skip_brackets(text, at)
            begun = at = skip_space(text, at)
        else:
            clause = re.compile(r"(ensures|requires|decreases|ghost|captures)\b").match(text, at)
            if clause and result is None:
                result, begun = text[begun:at], at
            at += 1


def error_of(result):
    """Returns the type of a result's error, without its own parameters, or the result itself if it is a fault."""
    result = re.sub(r"\s+", " ", result).strip()
    found = re.match(r"-> Result<(.*)>$", result)
    if not found:
        return result.removeprefix("-> ")
    inside, depth, last = found.group(1).rstrip(", "), 0, -1
    for place, letter in enumerate(inside):
        depth += letter in "<([{"
        depth -= letter in ">)]}"
        if letter == "," and not depth:
            last = place
    return re.sub(r"<.*", "", inside[last + 1 :].strip())


class Function:
    """Where its body begins, what it would answer there, and why that isn't tried."""

    def __init__(self, crate, file, name, place, answer):
        self.crate, self.file, self.name, self.place, self.answer = crate, file, name, place, answer
        self.why = None

    def __str__(self):
        module = os.path.relpath(self.file, f"crates/{self.crate}/src")[:-3].replace("/", "::")
        return "::".join(it for it in (self.crate, module if module != "lib" else "", self.name) if it)


def is_of_tests(crate):
    return crate.startswith("tests_") or crate in ACCEPTANCE


def tables_of(crate):
    """Returns the words of the program acceptance, each of which names a table. One is left out, which takes ten minutes in a build
    with checks: other tables come to all functions that it comes to."""
    tables = open(f"{TOP}/crates/{crate}/args", encoding="utf-8").read().split("\n")[:-1]
    return [it for it in tables if it != "sixteen.rows"]


def sources(top):
    for crate in sorted(it for it in os.listdir(f"{top}/crates") if not is_of_tests(it)):
        for folder, _, files in os.walk(f"{top}/crates/{crate}/src"):
            for file in sorted(files):
                if file.endswith(".rt") and "tests" not in file:
                    yield crate, os.path.relpath(f"{folder}/{file}", top)


def functions_of(crate, file, text, traits, wanted):
    """Yields the public functions of a file that can return out-of-memory, and such methods of public traits."""
    tests = text.find("#[cfg(test)]\nmod tests {")
    text = text if tests < 0 else text[:tests]
    owners = []
    for found in re.finditer(r"(?m)^(?:impl|pub trait|trait)\b([^{;]*)\{", text):
        head = re.sub(r"^<(?:[^<>]|<[^<>]*>)*>", "", found.group(1)).strip()
        trait, _, kind = head.rpartition(" for ")
        kind = re.split(r"[\s<:]", kind.strip().lstrip("&"))[0]
        owners.append((found.start(), skip_brackets(text, found.end() - 1), re.split(r"[\s<]", trait)[0], kind))
    for found in re.finditer(r"(?m)^[ ]*(pub )?(?:const |unsafe )*fn (\w+)", text):
        result, body = body_of(text, skip_parameters(text, found.end()))
        owner = [it for it in owners if it[0] < found.start() < it[1]]
        is_method = owner and owner[0][2] in traits
        value = wanted.get(error_of(result or ""))
        if body and (found.group(1) or is_method) and value:
            name = "::".join([it[3] for it in owner[:1]] + [found.group(2)])
            yield Function(crate, file, name, body, f"Err({value})" if "-> Result<" in result else value)


def texts_in(top):
    """Returns the crate and the text of each file."""
    return {file: (crate, open(f"{top}/{file}", encoding="utf-8").read()) for crate, file in sources(top)}


def found_in(top):
    texts = texts_in(top)
    wanted, traits = dict(OTHERS), set()
    for crate, text in texts.values():
        for enum in re.finditer(r"(?m)^pub enum (\w+)[^{]*\{", text):
            if re.search(r"(?m)^    NoMemory,", text[enum.end() : skip_brackets(text, enum.end() - 1)]):
                wanted[enum.group(1)] = f"{enum.group(1)}::NoMemory"
        traits |= set(re.findall(r"(?m)^pub trait (\w+)", text))
    for _, text in texts.values():
        for alias, error in re.findall(r"(?m)^pub type (\w+) = (\w+)", text):
            if error in wanted:
                wanted[alias] = f"{alias}::NoMemory"
    functions = []
    for file, (crate, text) in texts.items():
        functions += functions_of(crate, file, text, traits, wanted)
    functions.sort(key=lambda it: not it.answer.startswith("Err("))
    return functions, {file: text for file, (_, text) in texts.items()}


# ---- the copy


class Copy:
    """A copy of the repository whose functions have switches: those that are given, or those that can return out-of-memory."""

    def __init__(self, room, found=None):
        self.room, self.top, self.state, self.lock = room, f"{room}/repository", 0, threading.Lock()
        self.functions, self.texts = found or found_in(TOP)
        self.uses = {}
        for line in open(f"{TOP}/crates.txt", encoding="utf-8"):
            name, _, rest = line.partition("#")[0].partition(":")
            if name.strip():
                self.uses[name.split()[0]] = rest.split()
        shutil.rmtree(self.top, ignore_errors=True)
        os.makedirs(f"{self.top}/.git")
        shutil.copytree(f"{TOP}/crates", f"{self.top}/crates", ignore=shutil.ignore_patterns("out", "must-fail"))
        shutil.copy(f"{TOP}/HANDLES", self.top)
        for name, text in (("src/lib.rt", LIBRARY), ("c/wants.c", CODE)):
            path = f"{self.top}/crates/wants/{name}"
            os.makedirs(os.path.dirname(path), exist_ok=True)
            with open(path, "w", encoding="utf-8") as it:
                it.write(text)
        with open(f"{self.top}/crates.txt", "w", encoding="utf-8") as it:
            it.write("wants:\n")
            for name, below in self.uses.items():
                it.write(f"{name}: {' '.join(below)} wants\n")
        self.write()

    def write(self):
        """Writes each file with its switches."""
        for file, text in self.texts.items():
            own = [it for it in enumerate(self.functions) if it[1].file == file and not it[1].why]
            for number, function in sorted(own, key=lambda it: -it[1].place):
                switch = f" if wants::refused({number}) {{ return {function.answer}; }} "
                text = text[: function.place] + switch + text[function.place :]
            with open(f"{self.top}/{file}.new", "w", encoding="utf-8") as it:
                it.write(text)
            os.replace(f"{self.top}/{file}.new", f"{self.top}/{file}")

    def has_tests(self, crate):
        return crate in ACCEPTANCE or any(
            "#[test]" in open(f"{folder}/{file}", encoding="utf-8").read()
            for folder, _, files in os.walk(f"{TOP}/crates/{crate}/src")
            for file in files
        )

    def layer_of(self, crate):
        """Returns the crate itself, and the first crate of tests that uses it."""
        return [crate, *[it for it, below in self.uses.items() if it.startswith("tests_") and crate in below][:1]]

    def users_of(self, crate):
        """Returns the crates with tests that use a crate, nearest first."""
        found, ring = [crate], [crate]
        while ring:
            ring = [it for it, below in self.uses.items() if it not in found and set(below) & set(ring)]
            found += ring
        return [it for it in found[1:] if it not in ACCEPTANCE and self.has_tests(it)]

    def drop_refused(self, said):
        """Takes the switches out at which a build complains."""
        for file, line, why in re.findall(r"(?m)(crates/\S+?\.rt):(\d+)[^\n]*?(error\[[^\n]*)", said):
            lines = open(f"{self.top}/{file}", encoding="utf-8").read().split("\n")[: int(line)]
            found = re.findall(r"wants::refused\((\d+)\)", "\n".join(lines))
            if found and not self.functions[int(found[-1])].why:
                self.functions[int(found[-1])].why = why[:200]
                self.state += 1
        self.write()


class Tests:
    """The tests of a crate, built with all switches off."""

    def __init__(self, copy, crate, tables=None):
        """With `tables`, those of acceptance that are run, and else all of them."""
        self.copy, self.crate, self.room = copy, crate, f"{copy.room}/of-{crate}"
        self.tables = tables
        self.names, self.slow, self.seen, self.known = [], [], {}, {}

    def sum(self):
        """Returns a checksum of all that the tests are built from."""
        below, ring, sum_ = {self.crate}, [self.crate], hashlib.sha256(LIBRARY.encode() + CODE.encode())
        while ring:
            ring = [it for crate in ring for it in self.copy.uses.get(crate, []) if it not in below]
            below |= set(ring)
        for crate in sorted(below):
            for folder, _, files in sorted(os.walk(f"{self.copy.top}/crates/{crate}/src")):
                for file in sorted(files):
                    if crate == self.crate or "tests" not in file:
                        sum_.update(open(f"{folder}/{file}", "rb").read())
        return sum_.hexdigest()

    def build(self):
        sum_ = self.sum()
        if not os.path.exists(f"{self.room}/{sum_}"):
            said = self.made()
            if said:
                return said
            open(f"{self.room}/{sum_}", "w", encoding="utf-8").close()
        said = open(f"{self.room}/said", encoding="utf-8").read()
        self.names = re.findall(r"(?m)^test (\S+) \.\.\. ok$", said)
        if self.crate in ACCEPTANCE:
            # (each table is run alone once, which notes the switches that it comes to)
            for name in os.listdir(self.room):
                if name.startswith("seen-"):
                    os.remove(f"{self.room}/{name}")
            self.names = [name for name in self.tables or tables_of(self.crate) if not self.fails(name, None)]
        self.slow = re.findall(r"(?m)^test (\S+) \.\.\. (?!ok$)", said)
        for name in self.names:
            path = f"{self.room}/seen-{name}"
            bytes_ = open(path, "rb").read() if os.path.exists(path) else b""
            self.seen[name] = {place for place, byte in enumerate(bytes_) if byte}
        # A test that fails though no switch is on shows nothing.
        never = len(self.copy.functions)
        self.slow += [name for name in self.names if self.seen[name] and self.fails(name, never)]
        self.names = [name for name in self.names if name not in self.slow]
        return ""

    def made(self):
        """Builds the tests and runs them once. Returns what is said if they are not built."""
        shutil.rmtree(self.room, ignore_errors=True)
        os.makedirs(self.room)
        flags = f'-DROOM="\\"{self.room}\\"" -DCOUNT={len(self.copy.functions)}'
        how = {**os.environ, "RT_ALLOW_C": "wants", "CFLAGS": flags}
        words = ["--test", "--seconds", str(SECONDS)]
        if self.crate in ACCEPTANCE:
            # (the smallest table shows that the program is built, which is kept by the first switch that it comes to; all of the tables
            # are run afterwards, one by one)
            data = f"{TOP}/crates/{self.crate}/data"
            table = min(self.tables or tables_of(self.crate), key=lambda it: os.path.getsize(f"{data}/{it}"))
            words = ["--seconds", "900", "--data", f"{table}={data}/{table}", "--", table]
        built = subprocess.run(
            ["nice", "-n", "5", "rt", "try", *words],
            cwd=f"{self.copy.top}/crates/{self.crate}",
            env=how,
            stdin=subprocess.DEVNULL,
            stdout=subprocess.PIPE,
            stderr=subprocess.STDOUT,
            check=False,
        )
        said = built.stdout.decode(errors="replace")
        with open(f"{self.room}/said", "w", encoding="utf-8") as it:
            it.write(said)
        is_ended = r"(?m)^run=ended status=0" if self.crate in ACCEPTANCE else r"(?m)^test \S+ \.\.\. ok$"
        return "" if re.search(is_ended, said) else said or "nothing is said"

    def refuses(self, number):
        """Returns the first test that fails with a switch on, and the tests that come to it."""
        if number not in self.known:
            coming = [name for name in self.names if number in self.seen[name]]
            self.known[number] = next((name for name in coming if self.fails(name, number)), None), coming
        return self.known[number]

    def fails(self, name, number):
        words = open(f"{self.room}/words", "rb").read().decode().split("\0")[:-1]
        with tempfile.TemporaryDirectory(dir=self.room) as folder:
            if self.crate in ACCEPTANCE:
                shutil.copytree(f"{TOP}/crates/{self.crate}/data", folder, dirs_exist_ok=True)
            try:
                ran = subprocess.run(
                    ["nice", "-n", "5", *words, f"{self.room}/program", name],
                    cwd=folder,
                    env={} if number is None else {"WANTS_REFUSED": str(number)},
                    stdin=subprocess.DEVNULL,
                    stdout=subprocess.DEVNULL,
                    stderr=subprocess.DEVNULL,
                    timeout=TABLE_SECONDS if self.crate in ACCEPTANCE else SECONDS,
                    check=False,
                )
            except subprocess.TimeoutExpired:
                return True
        return ran.returncode != 0


# ---- the run


def built(copy, crate, chosen, tables=None):
    """Builds the tests of a crate, and tries them on its own functions; nothing if they do not pass with all switches off. A switch
    that does not compile is taken out, and all is built anew."""
    tests = Tests(copy, crate, tables)
    while True:
        state = copy.state
        said = tests.build()
        if not said:
            break
        with copy.lock:
            copy.drop_refused(said)
            if copy.state == state:
                print(f"# {crate}: its tests are not built:\n{said[-3000:]}", flush=True)
                return crate, None
    own = [it for it in chosen if copy.functions[it].crate == crate]
    left = [str(copy.functions[it]) for it in own if not copy.functions[it].why and not tests.refuses(it)[0]]
    print(f"# {crate}: {len(tests.names)} tests refuse {len(own) - len(left)} of its {len(own)}", flush=True)
    for name in left:
        print(f"#     not {name}", flush=True)
    for name in tests.slow:
        print(f"#     left out is {name}, which doesn't pass with all switches off", flush=True)
    return crate, tests


def tried(copy, tests, chosen, jobs):
    """Returns what becomes of each function: the crate and the test that refuse it, or the tests that come to it."""

    def answer(number):
        function, coming = copy.functions[number], []
        for crate in [*copy.layer_of(function.crate), *ACCEPTANCE, *copy.users_of(function.crate)]:
            if tests.get(crate) and not function.why:
                test, came = tests[crate].refuses(number)
                coming += [f"{crate}: {name}" for name in came]
                if test:
                    return crate, test
        return None, coming

    with concurrent.futures.ThreadPoolExecutor(jobs) as pool:
        return dict(zip(chosen, pool.map(answer, chosen)))


def run(copy, chosen, by, jobs):
    """Tries the tests of the functions' layers and of acceptance, and then of the users of those that are left."""
    tests = {}

    def build(crates):
        crates = [it for it in by or copy.uses if it in crates and it not in tests and copy.has_tests(it)]
        with concurrent.futures.ThreadPoolExecutor(jobs) as pool:
            tests.update(pool.map(lambda crate: built(copy, crate, chosen), crates))

    build({layer for it in chosen for layer in copy.layer_of(copy.functions[it].crate)} | set(ACCEPTANCE))
    answers = tried(copy, tests, chosen, jobs)
    left = [it for it, answer in answers.items() if not answer[0] and not copy.functions[it].why]
    build({user for it in left for user in copy.users_of(copy.functions[it].crate)})
    return {**answers, **tried(copy, tests, left, jobs)}, None in tests.values()


def told(copy, answers):
    """Prints the lines and the counts."""
    counts, ended = {}, 0
    for number, answer in sorted(answers.items(), key=lambda it: str(copy.functions[it[0]])):
        function = copy.functions[number]
        count = counts.setdefault(function.crate, [0, 0, 0, 0, 0])
        if function.why:
            count[4] += 1
            print(f"not compiled {function}: {function.why}")
        elif answer[0]:
            count[0 if answer[0] in copy.layer_of(function.crate) else 1 if answer[0] in ACCEPTANCE else 2] += 1
            print(f"refused {function} by {answer[0]} ({answer[1]})")
        else:
            count[3] += 1
            print(f"passes {function} ({', '.join(answer[1]) or 'none'})")
        ended |= not answer[0]
    print(f"\n{'crate':<16} {'its layer':>10} {'acceptance':>10} {'by a user':>10} {'passes':>7} {'not compiled':>13}")
    for crate, count in [*sorted(counts.items()), ("all", [sum(it) for it in zip([0] * 5, *counts.values())])]:
        print(f"{crate:<16} {count[0]:>10} {count[1]:>10} {count[2]:>10} {count[3]:>7} {count[4]:>13}")
    return ended


def main():
    words = argparse.ArgumentParser(description=__doc__, formatter_class=argparse.RawDescriptionHelpFormatter)
    words.add_argument("--jobs", type=int, default=1)
    words.add_argument("--room")
    words.add_argument("--of", nargs="+")
    words.add_argument("--by", nargs="+")
    words.add_argument("--list", action="store_true")
    given = words.parse_args()
    if given.list:
        for function in found_in(TOP)[0]:
            print(function, function.answer)
        return 0
    room = os.path.abspath(given.room) if given.room else tempfile.mkdtemp(prefix="wants-")
    try:
        os.makedirs(room, exist_ok=True)
        copy = Copy(room)
        chosen = [number for number, it in enumerate(copy.functions) if not given.of or it.crate in given.of]
        answers, is_lacking = run(copy, chosen, given.by, given.jobs)
        return told(copy, answers) or is_lacking
    finally:
        if not given.room:
            shutil.rmtree(room)


if __name__ == "__main__":
    sys.exit(main())
