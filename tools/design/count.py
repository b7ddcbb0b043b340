#!/usr/bin/env python3
"""count.py FOLDER [-v]: the places in FOLDER's crates that docs/DESIGN-PASS.md counts, a line a point; with -v each place."""
import re
import sys
from collections import Counter, defaultdict
from pathlib import Path

TOP = Path(sys.argv[1])
SHOWN = "-v" in sys.argv
SRC = {path.relative_to(TOP): re.sub(r"//[^\n]*", "", path.read_text()) for path in sorted((TOP / "crates").glob("*/src/**/*.rt"))}
ANTT = {path.relative_to(TOP): path.read_text() for path in sorted((TOP / "crates").glob("*/proofs/**/*.antt"))}


def places(pattern, files=SRC):
    """Each match, as file:line and its text."""
    for path, text in files.items():
        for match in re.finditer(pattern, text, re.M):
            line = text.count("\n", 0, match.start() + len(match[0]) - len(match[0].lstrip())) + 1
            yield f"{path}:{line}", match


def told(point, name, found):
    found = list(found)
    print(f"{point} {name}: {len(found)}")
    if SHOWN:
        print("".join(f"    {place} {' '.join(str(what).split())[:110]}\n" for place, what in found), end="")


# 1: an enum of two or three cases, one of which is a refusal, or nothing; a kind or an operation told by a number
CASE = re.compile(r"\b(Refused|Fault|Given|Absent|Nothing|NoKey|Fine|Cut|Over|Less)\b(?!::)")
told(1, "own enums in the shape of Option, Result or Ordering", ((p, m[1]) for p, m in places(r"^(?:pub(?:\(crate\))? )?enum (\w+)\b[^{]*\{(?:[^{}]|\{[^{}]*\})*\}") if CASE.search(m[0])))
told(1, "kinds and operations told by numbers", ((p, m[0]) for p, m in places(r"\bif (?:tag|operation|\w*kind) == \w+|\bconst (?:MEMORY|TABLE_T|IDENTITY|LOWER_HALF|UPPER_HALF|CHECK|LISTING|LOOKUP|LISTING_OF_NAMES|LOOKUP_OF_NAMES|LOOKUP_LENT)\b|^\s+\d+ => (?:Kept|Node|Stage)\b")))

# 2: functions that differ in names, types, sizes and constants alone
def shape(text):
    """A function's text with its names, types and numbers in order of their first use."""
    first = {}
    kept = {"fn", "pub", "let", "mut", "if", "else", "match", "return", "while", "for", "in", "loop", "break", "continue", "as", "self", "impl", "true", "false", "Ok", "Err", "Some", "None"}
    return " ".join(word if word in kept or not re.match(r"\w", word) else first.setdefault(word, f"x{len(first)}") for word in re.findall(r"\w+|[^\w\s]", text))


def functions():
    for place, match in places(r"^( *)(?:pub(?:\(crate\))? )?fn (\w+)[^;{]*?(?:\n *(?:requires|ensures)[^\n]*)*\s*\{\n((?:.*\n)*?)\1\}$"):
        signature = re.sub(r"\n *(?:requires|ensures)[^\n]*", "", match[0])
        yield place, match[2], signature


twins = defaultdict(list)
for place, name, text in functions():
    if name not in ("main", "fmt") and "extern" not in text:
        twins[shape(text)].append((place, name))
told(2, "functions that have a twin", (x for same in twins.values() if len(same) > 1 for x in same))

# 3: loops that count by hand
told(3, "loops that count an index by hand", ((p, m[0]) for p, m in places(r"\bwhile [^{]*[<>][^{]*\{|\bfor [a-z]\w* in 0\.\.[^{]*\{")))

# 4: conversion, comparison, printing by hand
told(4, "conversions by hand", ((p, m[0]) for p, m in places(r"\bfn (?:wide\d*|number|least|remaining|going_on|blank_level|signed|is_same|compare|\w+_word|\w+_from|kept_from)\b")))
told(4, "arms of tables between an enum and numbers", ((p, m[0]) for p, m in places(r"^\s+Refusal::\w+ => \d+|^\s+\d+ => .*Refusal::\w+")))
told(4, "printing by hand", ((p, m[0]) for p, m in places(r"\bfn print\w*|\bio::(?:print_\w+|write_all)\b")))

# 5: a fact in three contracts or more; parameters that travel together
facts = Counter()
where = defaultdict(list)
for place, match in places(r"requires(?: \w+)? \{(.*)\}"):
    for fact in match[1].split(" × "):
        fact = fact.strip(" ()")
        facts[fact] += 1
        where[fact].append((place, fact))
told(5, "places of a fact that three or more contracts ask for", (x for fact, n in facts.items() if n >= 3 for x in where[fact]))
told(5, "functions that take root, pool and cluster size one by one", ((p, m[1]) for p, m in places(r"fn (\w+)(?:<[^(]*>)?\(\s*root: &[^)]*pool: &[^)]*cluster") if "c_api" not in p))
told(5, "functions that take a layout's numbers one by one", ((p, m[1]) for p, m in places(r"fn (\w+)\([^)]*(?:root: usize|first: usize)[^)]*\)")))

# 6: a buffer with a length beside it, and arrays with a depth
told(6, "buffers with a length beside them", ((p, m[0]) for p, m in places(r"\[0u?\d*; (?:[A-Z]\w*|\d\d+)\]|io::large_buffer\(\)|\[\w+; LEVELS\]")))

# 7: a switch on which step to run
told(7, "switches on which step to run", ((p, m[0]) for p, m in places(r"\bfn run_case\b|match (?:stage|level\.stage)\b")))

# 8: answers and lemmas
told(8, "answers in proofs", ((p, m[0]) for p, m in places(r"^pub [\w+-]+ : goal\.[\w+-]+", ANTT)))
told(8, "lemmas", ((p, m[1]) for p, m in places(r"^\s*(?:pub )?([\w+'-]+) : (?!goal\.)(?!Type)", ANTT)))
