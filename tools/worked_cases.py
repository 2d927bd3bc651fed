"""The plans and schedules of docs/WORKED_CASES.md, read from its tables. The answers there are typed by hand."""
import re
from pathlib import Path

from plans import lines, plan, row

PAGE = Path(__file__).resolve().parent.parent / "docs/WORKED_CASES.md"
ORDERS = [a + b + c for a in "FE" for b in "-N" for c in "ZAUL"]


def tables():
    """The cells of each row of each table, with the heading that the table stands under."""
    heading = None
    for line in PAGE.read_text().splitlines():
        if line.startswith("## "):
            heading = line[3:]
        elif line.startswith("|") and not line.startswith("|---"):
            yield heading, [cell.strip() for cell in line.strip().strip("|").split("|")]


def line_set(cell):
    return lines(*(int(number) for number in re.findall(r"\d+", cell)))


def number(cell):
    return int(cell.replace(",", ""))


def plans():
    """The plans by name, as bytes. A row without a name goes on with the plan above it."""
    rows, reload, name = {}, {}, None
    for heading, cells in tables():
        if heading != "Plans" or cells[0] == "Plan":
            continue
        if cells[0]:
            name = cells[0]
            rows[name], reload[name] = [], number(cells[1])
        offset, period, deadline, work, priority, fixed_delay = map(number, cells[5:11])
        rows[name].append(row(offset=offset, period=period, deadline=deadline, work=work, priority=priority,
                              fixed_delay=fixed_delay, useful=line_set(cells[11]), evicting=line_set(cells[12])))
    return {name: plan(*rows[name], reload=reload[name]) for name in rows}


def schedules():
    """Name, input and report of each schedule."""
    known = plans()
    for heading, cells in tables():
        # the table of wrong readings stands under this heading too, and has none of the plans in its first column
        if heading != "Schedules" or cells[0] not in known:
            continue
        name, orders, first_line, task_lines, shows = cells
        report = "".join(f"{line}\n" for line in re.findall("`([^`]*)`", first_line + task_lines))
        for order in ORDERS if "the same under every order" in shows else re.findall("`([^`]*)`", orders):
            yield f"{name}-{order}", f"{order}\n".encode() + known[name], report
