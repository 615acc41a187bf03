#!/usr/bin/env python3
"""Counts the places of docs/DESIGN-PASS.md in crates/*/src, and with --list prints each.

Each of the eight points has the patterns that its places have; what of them stays, and why, is in that page.
"""
import glob
import re
import sys

LISTING = "--list" in sys.argv[1:]


def sources():
    for path in sorted(glob.glob("crates/*/src/**/*.rt", recursive=True)):
        with open(path, encoding="utf-8") as file:
            yield path, file.read()


def without_comments(text):
    return re.sub(r"//[^\n]*", "", text)


def found(pattern):
    for path, text in sources():
        for match in re.finditer(pattern, without_comments(text), re.M):
            line = text.count("\n", 0, match.start()) + 1
            yield f"{path.split('/')[1]}:{line}: {' '.join(match.group(0).split())}"


def enums():
    """Enums with a variant that is a refusal, an absence or a failure."""
    absent = r"Refused|Bad\w*|Off|Scratched|None|Missing|Unknown"
    for path, text in sources():
        for match in re.finditer(r"^(?:pub )?enum (\w+) \{(.*?)^\}", without_comments(text), re.M | re.S):
            if re.search(rf"^\s+(?:{absent})\b", match.group(2), re.M):
                yield f"{path.split('/')[1]}: {match.group(1)}"


def functions():
    """The name and the parameters of each function."""
    for path, text in sources():
        text = without_comments(text)
        for match in re.finditer(r"\bfn (\w+)(?:<[^(]*>)?\(([^{;]*?)\)\s*(?:->|requires|ensures|where|\{)", text, re.S):
            parameters = [part for part in re.split(r",(?![^<]*>)", match.group(2)) if part.strip()]
            yield path.split("/")[1], match.group(1), parameters


def long_lists():
    for crate, name, parameters in functions():
        if len(parameters) >= 8:
            yield f"{crate}::{name}: {len(parameters)}"


def unread():
    """Parameters that stand in no body, but in a contract."""
    pattern = r"\bfn (\w+)(?:<[^(]*>)?\(([^{;]*?)\)(.*?)\n\}"
    for path, text in sources():
        for match in re.finditer(pattern, without_comments(text), re.S):
            body = re.sub(r"\b(requires|ensures)\b[^{]*\{.*?\}\n", "", match.group(3), flags=re.S)
            body = body[body.find("{"):]
            for part in re.split(r",(?![^<]*>)", match.group(2)):
                name = re.sub(r"^mut ", "", part.strip()).split(":")[0].strip()
                if name and "self" not in name and not re.search(rf"\b{name}\b", body):
                    yield f"{path.split('/')[1]}::{match.group(1)}: {name}"


def proofs():
    answers = [path for path in glob.glob("crates/*/proofs/**/Answers.antt", recursive=True)]
    lines = sum(len(open(path, encoding="utf-8").read().splitlines()) for path in answers)
    goals = sum(len(re.findall(r"^pub ", open(path, encoding="utf-8").read(), re.M)) for path in answers)
    invariants = glob.glob("crates/*/proofs/**/Invariants.antt", recursive=True)
    inside = sum(len(open(path, encoding="utf-8").read().splitlines()) for path in invariants)
    lemmas = sum(len(open(path, encoding="utf-8").read().splitlines()) for path in glob.glob("crates/*/proofs/*.antt"))
    return len(answers), lines, goals, inside, lemmas


POINTS = [
    ("1 enums of the shape of Option or Result", enums),
    ("1 numbers for kinds: opcodes", lambda: found(r"\bkind: usize")),
    ("1 numbers for kinds: codes of blocks", lambda: found(r"\bcode: u8")),
    ("2 functions named for words, bytes or the strict form", lambda: found(r"\bfn \w*(?:word|words|byte|strict)\w*(?=[(<])")),
    ("3 loops by `while` and `loop`", lambda: found(r"^\s*(?:'\w+: )?(?:while|loop)\b.*")),
    ("4 conversions, choices and tests written by hand", lambda: found(r"\bfn (?:wide|widened|narrow|flag|number|number_of|block_of|least|lower_of|higher_of|choose\w*|space)(?=[(<])")),
    ("5 functions of eight parameters or more", long_lists),
    ("5 parameters that no code reads", unread),
    ("6 a length or an end beside what has it", lambda: found(r"\blet mut done\b")),
    ("7 flags that choose what a call does", lambda: found(r"\b(?:storing|deep): bool")),
]

for name, places in POINTS:
    places = list(places())
    print(f"{len(places):5} {name}")
    if LISTING:
        print("".join(f"        {place}\n" for place in places), end="")
files, lines, goals, inside, lemmas = proofs()
print(f"{goals:5} 8 answers, in {files} files of {lines} lines; invariants {inside} lines, lemmas {lemmas} lines")
