#!/usr/bin/env python3
"""Counts the places in crates/*/src that docs/DESIGN-PASS.md speaks of, point by point.

    tools/count_places.py            the counts
    tools/count_places.py --list     each hit too

A hit is a line to look at, no verdict: the page says which hits are places and what became of them.
Point 2 runs the command `duplicates` over copies of the sources whose names end in .rs, which it reads.
"""
import collections
import glob
import os
import re
import shutil
import subprocess
import sys
import tempfile

ROOT = os.path.dirname(os.path.dirname(os.path.abspath(__file__)))
SOURCES = sorted(glob.glob(os.path.join(ROOT, "crates", "*", "src", "**", "*.rt"), recursive=True))

# for each point, what is looked for and the pattern of its lines
PATTERNS = [
    ("1", "an enum of the crate's own", r"^\s*(pub(\(\w+\))? )?enum \w+"),
    ("1", "a call that changes something and answers a flag", r"&mut self\b.*-> bool|&mut \[.*-> bool"),
    ("1", "a flag among fields or parameters", r"\b\w+: bool\b[,)]"),
    ("1", "a number given for a value of an enum or for nothing", r"fn \w+(<\w+>)?\((self)?\) -> u(8|16|32|64)$"),
    ("2", "a constant", r"^\s*(pub(\(\w+\))? )?const \w+:"),
    ("3", "a loop over a range of numbers", r"\bfor \w+ in [^{]*\.\."),
    ("3", "a loop that is left by a test", r"^\s*(while|loop)\b"),
    ("3", "a loop that numbers what it takes", r"\bfor \(.*enumerate\(\)"),
    ("3", "a bound looked at before an index", r"^\s*(\} else )?if .*\w+ < (\w+(\.\w+)*\.len\(\)|TASKS|MOST_TASKS)"),
    ("4", "a comparison, a copy or a text by hand", r"^impl\b.*\b(PartialEq|Eq|PartialOrd|Ord|Clone|Copy|Display|Debug)\b.* for "),
    ("4", "a conversion by hand", r"fn (\w+_by|letter|number|digit|unhex|line_end|decimal_width|put_decimal|put_word)\b"),
    ("4", "a value of zeros written out", r"const \w+: (Task|Slot|Candidate|Summary|SwitchRow|JobRow) = |fn zero_mark\b"),
    ("6", "an array as a field", r"^\s*(pub(\(\w+\))? )?\w+: \[.*; \w+\],"),
    ("6", "a length or a place beside it", r"^\s*(pub(\(\w+\))? )?(used|count|place|len|next|at|end): u\w+,"),
    ("7", "a choice of code at run time", r"\bdyn \w|\bfn\(|match \w*(policy|model|dispatch|delay|preemption)\b"),
]


def hits(pattern):
    found = []
    for path in SOURCES:
        with open(path, encoding="utf-8") as lines:
            for number, line in enumerate(lines, 1):
                if re.search(pattern, line.rstrip("\n")):
                    found.append(f"{os.path.relpath(path, ROOT)}:{number}: {line.strip()}")
    return found


def repeated_code():
    """What `duplicates` finds: runs of five lines or more that stand twice."""
    with tempfile.TemporaryDirectory() as copies:
        for path in SOURCES:
            copy = os.path.join(copies, os.path.relpath(path, ROOT))[: -len(".rt")] + ".rs"
            os.makedirs(os.path.dirname(copy), exist_ok=True)
            shutil.copy(path, copy)
        command = ["duplicates", "--repo", copies, "--min-lines", "5", "--most", "200", "--seconds", "120"]
        answer = subprocess.run(command, capture_output=True, text=True, check=True).stdout
    return [row for row in answer.splitlines() if re.match(r"D\d+ ", row)]


def clauses(text):
    """Each function with the facts of its clauses, a product taken apart."""
    starts = [(m.start(), m.group(1)) for m in re.finditer(r"\bfn (\w+)", text)]
    for m in re.finditer(r"(requires|ensures)\s*\w*\s*\{(.*?)\}\s*$", text, re.M):
        owner = [name for start, name in starts if start < m.start()]
        if owner:
            for fact in m.group(2).split(" × "):
                yield owner[-1], fact.strip().strip("()").strip()


def parameters(text):
    """Each function with the names of its parameters."""
    for m in re.finditer(r"\bfn (\w+)(?:<[^>]*>)?\(([^)]*)\)", text):
        names = [p.split(":")[0].replace("mut ", "").strip() for p in m.group(2).split(",") if ":" in p]
        yield m.group(1), sorted(names)


def in_three():
    """Facts and pairs of parameters that stand in three functions of a crate or more."""
    facts = collections.defaultdict(set)
    pairs = collections.defaultdict(set)
    for path in SOURCES:
        with open(path, encoding="utf-8") as source:
            text = source.read()
        where = os.path.relpath(path, ROOT)
        crate = where.split(os.sep)[1]
        for function, fact in clauses(text):
            facts[(crate, fact)].add((where, function))
        for function, names in parameters(text):
            for i, first in enumerate(names):
                for second in names[i + 1:]:
                    pairs[(crate, f"{first}, {second}")].add((where, function))
    for kind, table in (("a fact in three contracts or more", facts), ("parameters that travel together", pairs)):
        rows = [(len(users), crate, what) for (crate, what), users in table.items() if len(users) >= 3]
        yield kind, [f"{count} in {crate}: {what}" for count, crate, what in sorted(rows, reverse=True)]


def proofs():
    files = sorted(glob.glob(os.path.join(ROOT, "crates", "*", "proofs", "**", "*.antt"), recursive=True))
    answers = lemmas = lines = 0
    for path in files:
        with open(path, encoding="utf-8") as source:
            text = source.read()
        lines += text.count("\n")
        answers += len(re.findall(r"^(?:abbrev )?pub [\w-]+ : goal\.", text, re.M))
        lemmas += len(re.findall(r"^(?:abbrev |unfoldable )?(?:pub )?(?!mod\b)[\w-]+ : (?!goal\.)", text, re.M))
    return len(files), lines, answers, lemmas


def main():
    listed = "--list" in sys.argv[1:]
    rows = [(point, what, hits(pattern)) for point, what, pattern in PATTERNS]
    rows.append(("2", "five lines or more that stand twice", repeated_code()))
    rows.extend(("5", what, found) for what, found in in_three())
    for point, what, found in sorted(rows, key=lambda row: row[0]):
        print(f"point {point}: {len(found):3} {what}")
        if listed:
            for line in found:
                print(f"    {line}")
    print("point 8: {} files of proofs, {} lines, {} answers, {} lemmas".format(*proofs()))


main()
