#!/usr/bin/env python3
"""Respells the repository's own definitions, lemmas and record fields: words in snake case, types and facts in camel case.

usage: python3 tools/respell.py [--plan]       at the top of the repository; --plan prints the renamings and changes nothing

It was run right after the toolchain's port.py, and once more when it had learned to see lemmas in sections. It goes by whole names:
a name that a file of specs/ or proofs/ declares and that has a capital after its first letter, or a dash, is respelled
wherever it stands in a clause, a definition or a proof, in a comment on one, or between backticks on a page. Code and
strings keep their text.
"""

import os
import re
import sys

LETTER = r"\w'₀₁₂₃₄₅₆₇₈₉′-"
NAME = re.compile(rf"[^\W\d][{LETTER}]*")
TOP = re.compile(rf"^(?:(?:abbrev|unfoldable|pub|data|record|ruleset)\s+)*([^\W\d][{LETTER}]*)\s*(?:[({{][^)}}]*[)}}]\s*)*:\s")
WITHIN = re.compile(rf"^\s+(?:(?:abbrev|unfoldable|pub)\s+)+([^\W\d][{LETTER}]*)\s*(?:[({{][^)}}]*[)}}]\s*)*:\s")
SECTION = re.compile(rf"(?m)^( +)([^\W\d][{LETTER}]*)\s:\s")
FIELD = re.compile(rf"^\s+(?:pub\s+)?([^\W\d][{LETTER}]*)\s*:\s")
ROW = re.compile(r"^--     (\S.*?)(\s{2,})(\S.*)$")
RECORD = re.compile(r"^(?:pub\s+)?record\s")

# lemmas that would fall together with the function that they speak of
APART = {"row-bytes": "row_bytes_lem", "head-values": "head_values_lem"}

# what port.py had respelled already, since a library has a name of the same spelling; the pages still had the old ones
EARLIER = {old: re.sub(r"([A-Z])", lambda m: "_" + m.group(1).lower(), old) for old in """
allOf bytesOf countOf fieldsAt inRow nextAt nextOf numberAt numberOf orElse orderOf outOf placeOf rowOf rowsOf settingOf
slotOf spareOf stateOf taskOf textOf""".split()}


def files(ends):
    for folder, dirs, names in os.walk("crates"):
        dirs[:] = sorted(d for d in dirs if d != "out")
        for name in sorted(names):
            if name.endswith(ends):
                yield os.path.join(folder, name)


def respelled(name):
    if name in APART:
        return APART[name]
    if name[0].isupper():
        return name.replace("-", "").replace("′", "'")
    return re.sub(r"(?<=[a-z0-9])([A-Z])", lambda m: "_" + m.group(1).lower(), name).replace("-", "_").replace("′", "'")


def declared(path):
    """The names that a file of specs/ or proofs/ declares at its left margin or in a section, and the fields of its records."""
    text = open(path, encoding="utf-8").read()
    for m in SECTION.finditer(text):
        if re.search(rf"(?m)^{m.group(1)}{re.escape(m.group(2))}(?![{LETTER}])[^:\n]*=", text):
            yield m.group(2)
    of_answers = os.path.basename(path) in ("Answers.antt", "Invariants.antt", "Proof.antt")
    inside = False
    for line in text.split("\n"):
        if line.startswith(("use ", "--", "pub mod ", "mod ", "pub use ")):
            continue
        if not line.startswith(" "):
            inside = bool(RECORD.match(line))
            m = TOP.match(line)
            if m and not (of_answers and re.search(r":\s*(goal|need|Goals)\.", line)):
                yield m.group(1)
        else:
            # a field of a record, or a lemma in a section that shares its variables
            m = FIELD.match(line) if inside else WITHIN.match(line)
            if m:
                yield m.group(1)


def rename_crate(old, new):
    """A library of the toolchain has the name now."""
    os.rename(os.path.join("crates", old), os.path.join("crates", new))
    turns = {".antt": [(rf"Rattle\.{old}\.", f"Rattle.{new}.")], ".rt": [(rf"Rattle\.{old}\.", f"Rattle.{new}."), (rf"\b{old}::", f"{new}::")]}
    for path in files(tuple(turns)):
        was = text = open(path, encoding="utf-8").read()
        for pattern, by in turns[os.path.splitext(path)[1]]:
            text = re.sub(pattern, by, text)
        if text != was:
            open(path, "w", encoding="utf-8").write(text)
    lines = open("crates.txt", encoding="utf-8").read().split("\n")
    lines = [line if line.startswith("#") else re.sub(rf"\b{old}\b", new, line) for line in lines]
    open("crates.txt", "w", encoding="utf-8").write("\n".join(lines))
    for page in ["README.md", "docs/RUNS.md", "docs/DECISIONS.md"]:
        text = open(page, encoding="utf-8").read()
        open(page, "w", encoding="utf-8").write(text.replace(f"`{old}`", f"`{new}`"))


def renamings():
    found = {}
    for path in files(".antt"):
        for name in declared(path):
            if respelled(name) != name:
                found[name] = respelled(name)
    return found


def turned(text, names):
    def one(m):
        return names.get(m.group(0), m.group(0))
    return NAME.sub(one, text)


def turned_antt(text, names):
    out = []
    for line in text.split("\n"):
        code, mark, note = line, "", ""
        at = line.find("--")
        if at >= 0 and (at == 0 or line[at - 1] == " "):
            code, mark, note = line[:at], line[at:at + 2], line[at + 2:]
        out.append(turned(code, names) + mark + turned(note, names))
    return "\n".join(out)


def aligned(old, new):
    """The table of words at the head of a file, with its second column where it stood, or as far to the right as it now needs."""
    rows = [ROW.match(line) for line in old.split("\n")]
    fresh = [ROW.match(line) if was else None for was, line in zip(rows, new.split("\n"))]
    column = max([0] + [len(m.group(1)) + 2 for m in fresh if m] + [m.start(3) - 7 for m in rows if m])
    return "\n".join(f"--     {m.group(1).ljust(column)}{m.group(3)}" if m else line for m, line in zip(fresh, new.split("\n")))


def turned_md(text, names):
    """Of a page what stands between backticks."""
    return re.sub(r"`[^`\n]+`", lambda m: turned(m.group(0), names), text)


def turned_rt(text, names):
    """Of a source file only what is said in clauses: it has no camel case of its own, and no name with a dash."""
    out = []
    for line in text.split("\n"):
        at = line.find("//")
        code, note = (line, "") if at < 0 else (line[:at], line[at:])
        out.append("".join(p if p.startswith('"') else turned(p, names) for p in re.split(r'("(?:[^"\\]|\\.)*")', code)) + note)
    return "\n".join(out)


def main(argv):
    names = renamings()
    if argv != ["--plan"] and os.path.isdir("crates/log"):
        rename_crate("log", "row_log")
    taken = set()
    for path in files((".antt", ".rt")):
        taken.update(NAME.findall(open(path, encoding="utf-8").read()))
    if argv == ["--plan"]:
        for old, new in sorted(names.items()):
            print(old, "->", new, "(taken)" if new in taken else "")
        return 0
    pages = ["README.md"] + [os.path.join("docs", page) for page in sorted(os.listdir("docs")) if page.endswith(".md")]
    for path in list(files((".antt", ".rt"))) + pages:
        old = open(path, encoding="utf-8").read()
        if path.endswith(".antt"):
            new = aligned(old, turned_antt(old, names))
        else:
            new = (turned_rt if path.endswith(".rt") else turned_md)(old, names | EARLIER)
        if new != old:
            open(path, "w", encoding="utf-8").write(new)
    return 0


if __name__ == "__main__":
    raise SystemExit(main(sys.argv[1:]))
