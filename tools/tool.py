"""What all tools share: how their words are read, and how a fault ends them, with one line on the error output and a status.

0: done; 1: what was given is of no use; 2: the words are wrong; 70: a fault of the tool itself. A reader that goes away
ends a tool in silence, as it ends every program of Unix.
"""

from __future__ import annotations

import argparse
import os
import signal
import sys
import traceback
from contextlib import contextmanager
from typing import Callable, Iterator, NoReturn, Optional

from cif import Unreadable

REFUSED, MISUSED, FAULTY = 1, 2, 70


class Words(argparse.ArgumentParser):
    """The words of a tool, out of the text at its head: the first line, the calls, and what is to be known besides."""

    def __init__(self, about: Optional[str], calls: str) -> None:
        super().__init__(usage=calls, description=about, formatter_class=argparse.RawDescriptionHelpFormatter, allow_abbrev=False)

    def error(self, message: str) -> NoReturn:
        tell(f"{message}; tools/{self.prog} --help says how it is called")
        sys.exit(MISUSED)


def tell(text: str) -> None:
    """Says a line on the error output."""
    try:
        print(f"{name()}: {text}", file=sys.stderr, flush=True)
    except OSError:
        pass


def name() -> str:
    return os.path.basename(sys.argv[0])


@contextmanager
def told_of(path: str) -> Iterator[None]:
    """Whatever is of no use in here is told with the name of its file."""
    try:
        yield
    except (Unreadable, RecursionError) as error:
        raise Unreadable(f"{path}: {said(error)}") from error


def said(error: BaseException) -> str:
    """What an error says, in one line, and each name once."""
    if isinstance(error, OSError):
        return ": ".join(str(it) for it in (error.filename, error.strerror) if it) or "the disk or a device failed"
    if isinstance(error, (MemoryError, RecursionError)):
        return "memory ran out" if isinstance(error, MemoryError) else "calls lie too deep in one another for a tool"
    return " ".join(str(error).split())


def carry_out(main: Callable[[], None]) -> NoReturn:
    """Runs a tool to its end."""
    try:
        main()
        sys.stdout.flush()
    except BrokenPipeError:
        os._exit(128 + signal.SIGPIPE)
    except (Unreadable, OSError, MemoryError, RecursionError) as error:
        end(REFUSED, said(error))
    except KeyboardInterrupt:
        end(128 + signal.SIGINT, "stopped")
    except Exception as error:  # whatever it is, the user has one line
        place = traceback.extract_tb(error.__traceback__)[-1]
        where = f"{os.path.basename(place.filename)}, line {place.lineno}"
        end(FAULTY, f"a fault of the tool itself, at {where}: {type(error).__name__}: {said(error)}")
    sys.exit(0)


def end(status: int, text: str) -> NoReturn:
    tell(text)
    # what the output did not take is not tried again
    os._exit(status)
