"""The table of a run: a line for each part, and the sums."""

import re
from typing import Any

from reports import Report

HEADS = ("part", "primitives", "fragments", "stitches", "conflicts", "notches", "cost", "bound", "aside", "check")
COUNTS = HEADS[1:-1]
YES = re.compile(r"yes cost (\d+) bound (\d+)")
Row = dict[str, Any]


def row_of(part: dict[str, Any], report: Report, said: str, notches: int) -> Row:
    """What the table says of a part; the bound is half the sum of the cycles, and aside is what is broken beside it."""
    row: Row = {"part": part["name"], "primitives": part["primitives"]}
    if report.refusal:
        return row | {"check": report.refusal}
    cost, bound = report.values["cost"], report.values["bound"] / 2
    return row | {
        "fragments": report.values["fragments"],
        "stitches": len(report.cuts),
        "conflicts": len(report.clashes),
        "notches": notches,
        "cost": cost,
        "bound": bound,
        "aside": cost - bound,
        "check": "good" if said == report.answer() else said,
    }


def table_of(rows: list[Row]) -> str:
    lines = ["\t".join(HEADS)]
    lines += ["\t".join(shown(row.get(head, "-")) for head in HEADS) for row in rows]
    done = [row for row in rows if "cost" in row]
    lines += ["", f"parts      {len(rows)}", f"good       {sum(row['check'] == 'good' for row in rows)}", f"refused    {len(rows) - len(done)}"]
    lines += [f"{head:<10} {shown(sum(row.get(head, 0) for row in rows))}" for head in COUNTS]
    return "\n".join(lines) + "\n"


def shown(value: object) -> str:
    return f"{value:.10g}" if isinstance(value, float) else str(value)


def faults_of(text: str, answers: dict[str, str]) -> list[str]:
    """Where a table is not what the checks of the parts say: the cost and the bound of each, and the sums of both."""
    rows, _, sums = text.partition("\n\n")
    found = [dict(zip(HEADS, line.split("\t"))) for line in rows.splitlines()[1:]]
    faults = [fault for row in found for fault in row_faults(row, answers.get(row["part"]))]
    faults += [f"part {name}: the table has no line of it" for name in sorted(answers.keys() - {row["part"] for row in found})]
    costs = [YES.fullmatch(said) for said in answers.values()]
    totals = {"cost": sum(int(it[1]) for it in costs if it), "bound": sum(int(it[2]) for it in costs if it) / 2}
    totals |= {"aside": totals["cost"] - totals["bound"], "parts": len(answers)}
    listed = dict(re.findall(r"^(\w+) +(\S+)$", sums, re.MULTILINE))
    return faults + [
        f"the table says {word} {listed.get(word)}, and the checks {shown(value)}" for word, value in totals.items() if listed.get(word) != shown(value)
    ]


def row_faults(row: dict[str, str], said: str | None) -> list[str]:
    if said is None:
        return [f"part {row['part']}: it is in the table, and not in the manifest"]
    yes = YES.fullmatch(said)
    due = {"cost": yes[1], "bound": shown(int(yes[2]) / 2)} if yes else {"cost": "-", "bound": "-"}
    return [f"part {row['part']}: the table says {word} {row.get(word)}, and its check {due[word]}" for word in due if row.get(word) != due[word]]
