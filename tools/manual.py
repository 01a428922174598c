"""What `./dpl` says of itself: how it is called, and the manual page."""

from __future__ import annotations

from typing import Iterable, Iterator, List, Tuple

from cif import RULES
from faults import CONDITIONS, LIMITS
from words import COMMANDS, INPUT, INPUT_MEANING, LENGTHS, OPTIONS, OWN, Option, call, usage as calls

STATUSES = {
    0: "done",
    1: "check: the report is not good",
    2: "the words are not a command with its options",
    3: "the layout breaks a rule of CIF",
    4: "a limit is passed",
    5: "an input could not be read",
    6: "the output could not be written",
    7: "memory ran out",
    8: "edit: a line of the script is not of the form, or removes a box that is not there",
    70: "the launcher failed: the kit is not here, the build failed, or the sources without their proofs gave no answer",
}

ABOUT = (
    "dpl splits one dense metal layer of a CIF 2.0 layout onto two masks, for double patterning, and proves what it did. "
    f"The layout comes from the standard input, or from the file that --{INPUT} names, and the report goes to the standard output. "
    "Lengths are hundredths of a micron of the layout's text; 60nm and 0.06um are lengths of the layout itself, where tools/import made the text larger."
)

WORDS = (
    "Behind the line of the program stands one that says in words what is wrong, on any error output. With DPL_WORDS=0 in the "
    "environment it is left out, and the program takes the launcher's place, which saves a process."
)

EXAMPLE = (
    "dpl split --layer M1 --space 60nm --overlap 20nm < block.cif > report.cif",
    "dpl check --layer M1 --space 60nm --overlap 20nm --report report.cif < block.cif",
)

MORE = "tools/layers FILE lists the layers of a file, and docs/using.md is a tour."

Row = Tuple[str, str]


def meaning(name: str, option: Option) -> str:
    """What an option means, what it takes, and its default."""
    or_length = ", or a length as 60nm or 0.06um" if name in LENGTHS else ""
    default = f"; {option.default} where it is left out" if option.default else ""
    return f"{option.meaning}: {option.wanted}{or_length}{default}"


def options(names: Iterable[str] = OPTIONS) -> Iterator[Row]:
    """Each option with what it takes."""
    for name in names:
        yield f"--{name} {OPTIONS[name].shown}", meaning(name, OPTIONS[name])


INPUT_ROW: Row = (f"--{INPUT} FILE", INPUT_MEANING)


def table(rows: Iterable[Row]) -> List[str]:
    rows = list(rows)
    width = max(len(name) for name, _ in rows) + 2
    return [f"  {name:{width}}{text}" for name, text in rows]


def usage() -> str:
    lines = ["usage:", *(f"  {line}" for line in calls()), "  dpl build | version | help [COMMAND] | install DIR", ""]
    lines += table([(name, command.meaning) for name, command in COMMANDS.items()] + list(OWN.items()))
    return "\n".join([*lines, "", *table([*options(), INPUT_ROW]), "", MORE])


def usage_of(name: str) -> str:
    """How one command is called."""
    if name not in COMMANDS:
        return f"usage: dpl {name}{' DIR' * (name == 'install')}\n{OWN[name]}"
    command = COMMANDS[name]
    rows = [*options(command.options), *[INPUT_ROW] * command.reads_layout]
    return "\n".join([f"usage: {call(name)}", command.meaning, "", *table(rows)])


def page() -> str:
    """The manual page, in the language of man."""
    lines = ['.TH DPL 1 "" "dpl" "User Commands"', ".SH NAME", "dpl \\- split a metal layer onto two masks, with a proof", ".SH SYNOPSIS"]
    for line in calls():
        lines += [".P", plain(line)]
    lines += [".SH DESCRIPTION", plain(ABOUT)]
    lines += section("COMMANDS", [(name, command.meaning) for name, command in COMMANDS.items()] + list(OWN.items()))
    lines += section("OPTIONS", [*options(), INPUT_ROW])
    lines += [".SH EXAMPLE", ".nf", *map(plain, EXAMPLE), ".fi"]
    lines += section("EXIT STATUS", ((str(status), text) for status, text in STATUSES.items()))
    lines += [".SH FAULTS IN WORDS", plain(WORDS)]
    lines += section("LAYOUT RULES", ((str(number), text) for number, text in RULES.items()))
    limits = ((str(number), f"at most {most:,} {counted}; {what}") for number, (counted, most, what) in LIMITS.items())
    lines += section("LIMITS", limits)
    conditions = ((str(number), text.replace("{line}", "")) for number, text in CONDITIONS.items())
    lines += section("CONDITIONS OF A GOOD REPORT", conditions)
    return "\n".join([*lines, ""])


def section(head: str, rows: Iterable[Row]) -> Iterator[str]:
    yield f".SH {head}"
    for name, text in rows:
        yield from (".TP", f".B {plain(name)}", plain(text + "."))


def plain(text: str) -> str:
    return text.replace("\\", "\\e").replace("-", "\\-")
