"""Runs KLayout in batch, without a window; where the Debian package has put its Python module, by that."""

from __future__ import annotations

import os
import subprocess
import sys
import tempfile

from cif import Unreadable

LIBRARY = "/usr/lib/klayout"
ALONE = os.path.join(os.path.dirname(os.path.realpath(__file__)), "alone.py")


def run(script: str, **named: str) -> None:
    """Runs a script in KLayout's Python, with named texts as its global variables. What it prints goes to the error output,
    since KLayout prints its warnings where a tool writes its text."""
    with tempfile.NamedTemporaryFile(suffix=".py", mode="w") as file:
        file.write(script)
        file.flush()
        words, settings = command(file.name, [f"{name}={text}" for name, text in named.items()])
        try:
            subprocess.run(words, check=True, stdout=sys.stderr, env={**os.environ, **settings})
        except FileNotFoundError as error:
            raise Unreadable("this needs KLayout, and there is no program klayout here") from error
        except subprocess.CalledProcessError as error:
            raise Unreadable(f"KLayout ended with status {error.returncode}") from error


def command(script: str, pairs: list[str]) -> tuple[list[str], dict[str, str]]:
    """The words that run a script with variables, and the settings of the environment that they want."""
    if os.path.isdir(f"{LIBRARY}/pymod"):
        return ["/usr/bin/python3", ALONE, script, *pairs], {"LD_LIBRARY_PATH": LIBRARY, "PYTHONPATH": f"{LIBRARY}/pymod"}
    words = [word for pair in pairs for word in ("-rd", pair)]
    return ["klayout", "-b", *words, "-r", script], {"QT_QPA_PLATFORM": "offscreen"}
