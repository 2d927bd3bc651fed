#!/usr/bin/env python3
"""Makes the example inputs and the tables of the test program.

The reports come from the simulator in bench/, never from the planner; those of the worked cases are typed by hand as well. With them
go inputs that are made up from seeds, for which the test program has the same generator.

    tools/make_cases.py            writes examples/, crates/cases/stdin and stdout, crates/planner/stdin and stdout
    tools/make_cases.py --check    says whether those files are what it would write
    tools/make_cases.py --made SEED COUNT    prints inputs that are made up, as lines for the test program
"""
import re
import sys
from pathlib import Path

import simulator
import worked_cases
from made_plans import made_inputs
from plans import lines, plan, row

ROOT = Path(__file__).resolve().parent.parent

S0 = row(offset=1, period=6, deadline=6, work=2, priority=9, evicting=lines(1, 2))
S1 = row(offset=0, period=12, deadline=12, work=5, priority=5, useful=lines(1, 2), evicting=lines(1, 2))
S = plan(S0, S1)


# ------------------------------------------------------------------ the table
def told(first_line, *figures):
    """A report: its first line, and of each task the jobs finished, the worst response and the delay."""
    return f"{first_line}\n" + "".join(f"{i} {line}\n" for i, line in enumerate(figures))


def table():
    """Name, input and, where it is a worked case, the report typed by hand."""
    fl = b"F-L\n"
    two = lambda a, b, **head: fl + plan(a, b, **head)
    full = row(offset=2**20 - 1, period=2**20 - 1, deadline=2**20 - 1, work=2**20 - 1, priority=255, fixed_delay=4095, useful=2**64 - 1, evicting=2**64 - 1)

    # schedules
    yield from worked_cases.schedules()

    # order lines
    yield "no-input", b"", "REFUSED O 16 - 0\n"
    for text, bit in (("X-L\n", 0), ("f-L\n", 0), ("L-F\n", 0), ("\n", 0), ("F", 8), ("FxL\n", 8), ("FnL\n", 8), ("F L\n", 8), ("FFL\n", 8), ("F-", 16), ("F-l\n", 16),
                      ("F-z\n", 16), ("F-M\n", 16), ("FN\n", 16), ("E-a\n", 16), ("E-u\n", 16), ("F-L", 24), ("F-L\r\n", 24), ("F-L \n", 24), ("F-LL", 24), ("e", 0), ("Xx", 0),
                      ("--Z\n", 0), ("F+L\n", 8), ("FFF\n", 8), ("Fn", 8), ("F-X\n", 16)):
        name = "order-" + "".join(c if c.isalnum() or c == "-" else f"%{ord(c):02x}" for c in text)
        yield name, text.encode(), f"REFUSED O 16 - {bit}\n"
    yield "order-before-plan", b"F-Q\n" + plan(S0, revision=2), "REFUSED O 16 - 16\n"

    # lengths
    yield "empty-plan", fl, "REFUSED B 1 - 0\n"
    yield "half-head", fl + S[:1], "REFUSED B 1 - 8\n"
    yield "head-alone", fl + S[:2], "REFUSED B 1 0 16\n"
    yield "without-last-byte", fl + S[:59], "REFUSED B 1 1 472\n"
    yield "one-row-of-two", fl + S[:31], "REFUSED B 1 1 248\n"
    yield "one-byte-more", fl + S + b"\0", "REFUSED B 2 - 480\n"
    yield "thousand-bytes-more", fl + S + bytes(1000), "REFUSED B 2 - 480\n"
    yield "one-row-more", fl + S + S[31:], "REFUSED B 2 - 480\n"
    yield "one-task-one-byte-more", fl + plan(S0) + b"\xff", "REFUSED B 2 - 248\n"
    yield "sixteen", fl + plan(*[S0] * 16), told("MISSES 7 3 0", "1 2 0", "1 4 0", "1 6 0", *["0 6 0"] * 13)
    yield "sixteen-one-byte-more", fl + plan(*[S0] * 16) + b"\1", "REFUSED B 2 - 3728\n"
    yield "sixteen-cut", fl + plan(*[S0] * 16)[:-1], "REFUSED B 1 15 3720\n"
    yield "fifteen-of-sixteen", fl + plan(*[S0] * 15, count=16), "REFUSED B 1 15 3496\n"

    # the head
    for revision in (0, 2, 3, 15):
        yield f"revision-{revision}", two(S0, S1, revision=revision), "REFUSED B 3 - 0\n"
    for spare in (1, 2, 3):
        yield f"head-spare-{spare}", two(S0, S1, spare=spare), "REFUSED B 4 - 14\n"
    yield "reload-63", two(S0, S1, reload=63), told("HOLDS 13 1 0", "2 2 0", "1 7 0")
    yield "reload-0", two(S0, S1, reload=0), told("HOLDS 13 1 0", "2 2 0", "1 7 0")

    # one rule broken, in row 0 and in row 1
    broken = {
        "spare-1": (row(spare=1), "B 4 {r} {228}"),
        "spare-8": (row(spare=8), "B 4 {r} {228}"),
        "period-0": (row(period=0), "P 5 {r} {20}"),
        "period-0-all-0": (row(period=0, deadline=0, work=0), "P 5 {r} {20}"),
        "work-0": (row(work=0), "P 6 {r} {60}"),
        "work-over-deadline": (row(work=6, deadline=5), "P 6 {r} {60}"),
        "deadline-over-period": (row(deadline=11), "P 6 {r} {60}"),
        "deadline-0": (row(deadline=0), "P 6 {r} {60}"),
        "useful-63-only": (row(useful=lines(63)), "P 7 {r} {100}"),
        "useful-0-only": (row(useful=lines(0)), "P 7 {r} {100}"),
        "useful-beside-evicting": (row(useful=lines(3, 4), evicting=lines(4, 5)), "P 7 {r} {100}"),
    }
    for name, (bad, answer) in broken.items():
        for r, data in ((0, two(bad, S1)), (1, two(S0, bad))):
            text = answer.replace("{r}", str(r))
            for first in (20, 60, 100, 228):
                text = text.replace("{" + str(first) + "}", str(16 + 232 * r + first))
            yield f"{name}-row-{r}", data, f"REFUSED {text}\n"

    # bounds
    yield "deadline-is-period", fl + plan(row(deadline=10)), told("HOLDS 10 1 0", "1 1 0")
    yield "deadline-is-period-plus-1", fl + plan(row(deadline=11)), "REFUSED P 6 0 76\n"
    yield "work-deadline-period-1", fl + plan(row(period=1, deadline=1, work=1)), told("HOLDS 1 1 0", "1 1 0")
    yield "greatest-values", fl + plan(full, reload=63), told("HOLDS 2097150 1 0", "1 1048575 0")
    yield "greatest-values-sixteen", fl + plan(*[full] * 16, reload=63), told("MISSES 2097150 1 0", "1 1048575 0", *["0 1048575 0"] * 15)
    yield "useful-is-evicting", fl + plan(row(useful=lines(0, 31, 63), evicting=lines(0, 31, 63))), told("HOLDS 10 1 0", "1 1 0")
    yield "offset-over-period", fl + plan(row(offset=1000)), told("HOLDS 1010 1 0", "1 1 0")
    long = lambda *periods: fl + plan(*(row(period=p, deadline=p) for p in periods))
    yield "period-999000000", long(1_000_000, 999), told("OPEN 20000000", "20 1 0", "20021 2 0")
    yield "period-1001000000", long(1_000_000, 1_001), "REFUSED P 8 1 -\n"
    yield "period-999999999", long(2_997, 333_667), told("OPEN 20000000", "6674 1 0", "60 2 0")
    yield "period-1000000001", long(1_001, 999_001), "REFUSED P 8 1 -\n"
    yield "period-within-then-past", long(1_000, 1_001, 999, 997), None
    yield "period-past-at-row-2", long(1_000_000, 999, 7), "REFUSED P 8 2 -\n"
    yield "period-past-at-row-4", long(1_001, 999, 1_000, 7, 17), "REFUSED P 8 4 -\n"
    yield "period-common-factors", long(1_000_000, 500_000, 250_000, 125_000, 999), None

    # two faults at once
    yield "spare-before-period", two(row(spare=1, period=0), S1), "REFUSED B 4 0 244\n"
    yield "period-before-times", two(row(period=0, work=0), S1), "REFUSED P 5 0 36\n"
    yield "times-before-blocks", two(row(work=0, useful=1), S1), "REFUSED P 6 0 76\n"
    yield "blocks-before-common-period", fl + plan(row(period=1_000_000), row(period=1_001, useful=1)), "REFUSED P 7 1 348\n"
    yield "row-0-before-row-1", two(row(useful=1), row(spare=1)), "REFUSED P 7 0 116\n"
    yield "row-0-before-row-1-other", two(row(spare=1), row(useful=1)), "REFUSED B 4 0 244\n"
    yield "row-before-extra", two(S0, row(work=0)) + b"\0", "REFUSED P 6 1 308\n"
    yield "row-0-before-cut-row-1", fl + plan(row(work=0), S1)[:-1], "REFUSED P 6 0 76\n"
    yield "cut-before-spare", fl + plan(S0, row(spare=1))[:-1], "REFUSED B 1 1 472\n"
    yield "revision-before-spare", two(S0, S1, revision=9, spare=1), "REFUSED B 3 - 0\n"
    yield "head-spare-before-row", two(row(spare=1), S1, spare=1), "REFUSED B 4 - 14\n"
    yield "times-before-extra", two(S0, row(period=0)) + b"\0", "REFUSED P 5 1 268\n"
    yield "length-before-revision", fl + b"\x21", "REFUSED B 1 - 8\n"
    yield "revision-before-length", fl + b"\x00\x00", "REFUSED B 3 - 0\n"
    yield "common-period-before-extra", long(1_000_000, 1_001) + b"\0", "REFUSED P 8 1 -\n"

    # every prefix of S, and S with each of its bits turned
    for size in range(len(S)):
        yield f"prefix-{size}", fl + S[:size], None
    for bit in range(8 * len(S)):
        turned = bytearray(S)
        turned[bit // 8] ^= 0x80 >> bit % 8
        yield f"turned-{bit}", fl + bytes(turned), None


EXAMPLES = {
    "s.F-L.in": b"F-L\n" + S,
    "s.F-U.in": b"F-U\n" + S,
    "s.FNU.in": b"FNU\n" + S,
    "s.E-U.in": b"E-U\n" + S,
    "long.F-Z.in": b"F-Z\n" + worked_cases.plans()["LONG"],
    "sixteen.E-Z.in": b"E-Z\n" + plan(*[row(offset=i, period=160, deadline=160, work=5, priority=i) for i in range(16)]),
    "cut.F-L.in": b"F-L\n" + S[:59],
    "late-deadline.F-L.in": b"F-L\n" + plan(S0, row(period=12, deadline=13, work=5)),
    "long-hyperperiod.F-Z.in": b"F-Z\n" + plan(row(period=1_000_000), row(period=1_001)),
    "unknown-letter.in": b"F-Q\n" + S,
}


# ------------------------------------------------------------------ made-up inputs
PLANS_OF_A_TRIAL = 500
SEEDS = range(1, 11)
# so many reports of a trial are written whole
SHOWN = 3
KINDS = ("HOLDS", "MISSES", "OPEN", "REFUSED")


def counts(reports):
    """How many reports there are of each kind."""
    kinds = [report.split()[0] for report in reports]
    return ", ".join(f"{kinds.count(kind)} {kind}" for kind in KINDS)


def digest(reports):
    """FNV-1a of 64 bits."""
    value = 0xCBF29CE484222325
    for byte in "".join(reports).encode():
        value = (value ^ byte) * 0x100000001B3 % 2**64
    return f"{value:016x}"


def trial(seed, reports):
    """What the test program writes of a trial."""
    shown = "".join(reports[:SHOWN])
    return f"made {seed} {len(reports)}\n{shown}{counts(reports)}, digest {digest(reports)}\n"


# ------------------------------------------------------------------ the files
def inputs():
    """The files that hold no report."""
    cases = [f"{name} {data.hex()}\n" for name, data, _ in table()]
    trials = [f"made {seed} {PLANS_OF_A_TRIAL}\n" for seed in SEEDS]
    yield ROOT / "crates/cases/stdin", "".join(cases + trials).encode()
    yield ROOT / "crates/planner/stdin", EXAMPLES["s.F-L.in"]
    for name, data in EXAMPLES.items():
        yield ROOT / "examples" / name, data


def check_readme(report_of):
    """The table of examples gives the first line of each report."""
    page = (ROOT / "README.md").read_text()
    for name, data in EXAMPLES.items():
        first_line = report_of[data].splitlines()[0]
        assert re.search(rf"`examples/{re.escape(name)}` .*`{re.escape(first_line)}`", page), f"README.md: {name} gives {first_line}"


def answers():
    """The files that hold reports."""
    cases = list(table())
    made = {seed: made_inputs(seed, PLANS_OF_A_TRIAL) for seed in SEEDS}
    report_of = simulator.reports([data for _, data, _ in cases] + sum(made.values(), []) + list(EXAMPLES.values()))
    check_readme(report_of)
    for name, data, typed in cases:
        assert typed is None or typed == report_of[data], f"{name}: by hand\n{typed}and by the simulator\n{report_of[data]}"
    trials = {seed: [report_of[data] for data in inputs] for seed, inputs in made.items()}
    print(f"{len(cases)} inputs of the table; made up {counts(sum(trials.values(), []))}")
    written = [f"{name}\n{report_of[data]}" for name, data, _ in cases] + [trial(seed, reports) for seed, reports in trials.items()]
    yield ROOT / "crates/cases/stdout", "".join(written).encode()
    yield ROOT / "crates/planner/stdout", report_of[EXAMPLES["s.F-L.in"]].encode()


def print_made(seed, count):
    for number, data in enumerate(made_inputs(seed, count)):
        print(f"made-{seed}-{number} {data.hex()}")


def main():
    if sys.argv[1:2] == ["--made"]:
        return print_made(*map(int, sys.argv[2:]))
    files = dict(inputs())
    if simulator.rustc():
        files |= dict(answers())
    elif "--check" in sys.argv[1:]:
        print("there is no rustc: crates/cases/stdout and crates/planner/stdout are not looked at")
    else:
        sys.exit("there is no rustc, and the reports want it")
    stale = [path for path, content in files.items() if not path.exists() or path.read_bytes() != content]
    if "--check" in sys.argv[1:]:
        for path in stale:
            print(f"not what tools/make_cases.py writes: {path.relative_to(ROOT)}")
        sys.exit(1 if stale else 0)
    for path in stale:
        path.parent.mkdir(parents=True, exist_ok=True)
        path.write_bytes(files[path])


if __name__ == "__main__":
    main()
