"""The words of `./dpl`: those of the program are judged, answered and explained, and some are the launcher's own.

What only some words need is imported where it is needed, so that the answer does not wait for it.
"""

from __future__ import annotations

import os
import signal
import sys
from typing import IO, Callable, Dict, NamedTuple, NoReturn, Optional, Sequence, Tuple

import given_layout
import kit
import words as command_line
from kit import BINARY, FAILED, MISUSED, Ended, Failed, Misused

UNPROVED = (
    "dpl: no proved program stands here yet, so this answer comes from the same sources without their proofs, "
    "in a minute or two; ./dpl build proves and builds the program"
)
OLD = "dpl: a source is newer than the program that answers; ./dpl build proves and builds it again"

HEAD = 4_096
EMPTY = b"\n(fragments 0);\n"
# what check and cross say of an empty layer, among others
OF_EMPTY = (b"yes cost 0 bound 0\n", b"excess 0 none\n")
HELP, VERSION = frozenset(("-h", "--help")), "--version"


class Answer(NamedTuple):
    """The program's status, its line, and the first bytes of its output."""

    status: int
    line: str
    head: bytes


def main(words: Sequence[str]) -> int:
    kit.hold_standard_files()
    signal.signal(signal.SIGTERM, end_by)
    try:
        return run(words)
    except Ended as ended:
        kit.tell(f"{ended.line}\n")
        if ended.said and speaks():
            kit.tell(f"     {ended.said}\n")
        return ended.status
    except Misused as misused:
        kit.tell(f"dpl: {misused}; dpl help says how each command is called\n")
        return MISUSED
    except Failed as failed:
        kit.tell(f"dpl: {failed}\n")
        return FAILED
    except KeyboardInterrupt:
        kit.tell("\n")
        return 130


def end_by(number: int, _: object) -> NoReturn:
    sys.exit(128 + number)


def run(words: Sequence[str]) -> int:
    first = words[0] if words else ""
    if HELP & set(words):
        return own("help", [first] if first in (*command_line.COMMANDS, *command_line.OWN) else [])
    if VERSION in words:
        return own("version", [])
    if first in command_line.OWN:
        return own(first, words[1:])
    return of_program(words)


def speaks() -> bool:
    """Whether faults are told in words besides."""
    return os.environ.get("DPL_WORDS") != "0"


# ---- the launcher's own words


def own(name: str, words: Sequence[str]) -> int:
    least, most = {"help": (0, 1), "install": (1, 1)}.get(name, (0, 0))
    if not least <= len(words) <= most:
        raise Misused("a folder is wanted, and nothing else: dpl install DIR" if name == "install" else f"{name} takes no such words")
    return 0 if written(f"{OWN[name](*words)}\n".encode()) else 6


def build() -> str:
    import proving

    return proving.build()


def help_of(name: str = "") -> str:
    import manual

    if name and name not in command_line.COMMANDS and name not in command_line.OWN:
        raise Misused(command_line.no_command(name))
    return manual.usage_of(name) if name else manual.usage()


def version() -> str:
    import built

    return built.version()


def install(folder: str) -> str:
    import installing

    return installing.install(folder)


OWN: Dict[str, Callable[..., str]] = {"build": build, "help": help_of, "version": version, "install": install}


# ---- the program's words


def of_program(words: Sequence[str]) -> int:
    """The program's answer to its words."""
    has_program = kit.has_program()
    given, named = command_line.input_of(words)
    if has_program and kit.is_old():
        kit.tell(f"{OLD}\n")
    times, asked = 1, given
    if reads_layout(given):
        if given_layout.is_terminal(named):
            kit.tell("dpl: the layout is read from this terminal; < FILE or --input FILE gives it one\n")
        has_units = command_line.has_units(given)
        given_layout.layout_from(named, is_held=speaks() or has_units)
        if has_units:
            times = given_layout.scale_of()
            asked = command_line.in_hundredths(given, times)
    if has_program and not speaks():
        os.execv(BINARY, ["dpl", *asked])
    begins = given_layout.place()
    answer, layout = (watched(asked), None) if has_program else unproved(asked)
    kit.tell(answer.line)
    if speaks() and (answer.line or lacks_layer(answer, asked)):
        explain(answer, asked, times, layout if layout is not None else given_layout.again(begins))
    return answer.status


def reads_layout(words: Sequence[str]) -> bool:
    """Whether words that the program takes, but for lengths that have a unit, ask for a layout."""
    wrong = command_line.wrong_in(words)
    is_right = wrong is None or wrong.kind == 3 and command_line.has_units(words)
    return is_right and command_line.COMMANDS[words[0]].reads_layout


def lacks_layer(answer: Answer, words: Sequence[str]) -> bool:
    """Whether a layer that was named may have nothing."""
    is_doubtful = EMPTY in answer.head or answer.head in OF_EMPTY or command_line.value_of(words, "keep") is not None
    return not answer.status and is_doubtful


def explain(answer: Answer, words: Sequence[str], times: int, layout: Optional[bytes]) -> None:
    """Says in words what the program's line means, or that a split has nothing on a layer that was named."""
    import faults

    said = faults.explain(answer.line, words, layout, times)
    if said:
        kit.tell(f"     {said}\n")
    if lacks_layer(answer, words):
        layer, keep = command_line.value_of(words, "layer"), command_line.value_of(words, "keep")
        is_empty = EMPTY in answer.head or answer.head in OF_EMPTY and faults.is_unset(layer, layout)
        lacks = faults.nothing_split(layer, layout) if is_empty else faults.nothing_kept(keep, layout)
        kit.tell(f"dpl: {lacks}\n" if lacks else "")


# ---- by the proved program


def watched(words: Sequence[str]) -> Answer:
    """Runs the program and lets its output through."""
    import subprocess

    # a file may be named by its number, as /dev/fd/63
    with subprocess.Popen([BINARY, *words], stdout=subprocess.PIPE, stderr=subprocess.PIPE, close_fds=False) as process:
        try:
            head, is_taken = passed_on(process.stdout)
            line = process.stderr.read().decode(errors="replace") if process.stderr else ""
        except BaseException:
            process.kill()
            raise
    if not is_taken:
        return Answer(6, "dpl: write fault\n", head)
    return Answer(process.returncode if process.returncode >= 0 else 128 - process.returncode, line, head)


def passed_on(output: Optional[IO[bytes]]) -> Tuple[bytes, bool]:
    """The first bytes of an output, and whether all of it was taken."""
    head, taken = b"", True
    while output and taken and (part := os.read(output.fileno(), 1 << 20)):
        head += part[: HEAD - len(head)]
        taken = written(part)
    if output and not taken:
        output.close()
    return head, taken


def written(data: bytes) -> bool:
    """Whether the standard output takes all bytes."""
    view = memoryview(data)
    try:
        while view:
            view = view[os.write(1, view) :]
    except OSError:
        return False
    return True


# ---- without proofs


def unproved(words: Sequence[str]) -> Tuple[Answer, Optional[bytes]]:
    """Judges the words, and answers by the sources; the layout besides, which was read to its end."""
    import trying

    wrong = command_line.wrong_in(words)
    if wrong:
        return Answer(2, f"dpl: usage {wrong.kind}\n", b""), None
    kit.find_kit()
    kit.tell(f"{UNPROVED}\n")
    reads = command_line.COMMANDS[words[0]].reads_layout
    layout = b"".join(given_layout.layout()) if reads else b""
    status, out, told = trying.answer(words, layout, kit.Line())
    if not written(out):
        return Answer(6, "dpl: write fault\n", b""), layout
    return Answer(status, told.decode(errors="replace"), out[:HEAD]), layout


if __name__ == "__main__":
    sys.exit(main(sys.argv[1:]))
