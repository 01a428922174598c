"""Copies what a user needs below a folder: the proved program, the launcher with its tools, the manual page, the completions."""

from __future__ import annotations

import os
import shutil
from typing import Iterator

import built
import completion
import kit
import manual
from kit import BINARY, TOP, Failed

LAUNCHER = ("dpl", "tools", "klayout")
WITHOUT = shutil.ignore_patterns("__pycache__", ".mypy_cache", "tests", "test", "tried.py", "statement*", "counts", "gate", "mutants")


def install(folder: str) -> str:
    """Copies all; what was written, a line each."""
    if not kit.has_program():
        raise Failed("there is no proved program to install yet: dpl build proves and builds it")
    try:
        return "\n".join(copied(os.path.abspath(folder)))
    except shutil.Error as error:
        raise Failed(f"{folder}: not all could be copied: {error.args[0][0][2]}") from error
    except OSError as error:
        raise Failed(f"{error.filename or folder}: {error.strerror}") from error


def copied(folder: str) -> Iterator[str]:
    home = os.path.join(folder, "lib", "dpl")
    program = os.path.join(home, os.path.relpath(BINARY, TOP))
    for name in LAUNCHER:
        copy(os.path.join(TOP, name), os.path.join(home, name))
    for path in (BINARY, built.RECORD):
        if os.path.exists(path):
            copy(path, os.path.join(home, os.path.relpath(path, TOP)))
    yield link(os.path.join("..", "lib", "dpl", "dpl"), os.path.join(folder, "bin", "dpl"))
    yield program
    yield os.path.join(home, "tools")
    yield written(os.path.join(folder, "share", "man", "man1", "dpl.1"), manual.page())
    yield written(os.path.join(folder, "share", "bash-completion", "completions", "dpl"), completion.bash())
    yield written(os.path.join(folder, "share", "zsh", "site-functions", "_dpl"), completion.zsh())


def copy(source: str, target: str) -> None:
    """Copies a file or a folder; a program that runs cannot be written over, but its name can be given to another."""
    if os.path.isdir(source):
        shutil.copytree(source, target, ignore=WITHOUT, dirs_exist_ok=True)
    elif os.path.exists(source):
        os.makedirs(os.path.dirname(target), exist_ok=True)
        shutil.copy2(source, f"{target}.new")
        os.replace(f"{target}.new", target)


def link(target: str, path: str) -> str:
    os.makedirs(os.path.dirname(path), exist_ok=True)
    if os.path.lexists(f"{path}.new"):
        os.remove(f"{path}.new")
    os.symlink(target, f"{path}.new")
    os.replace(f"{path}.new", path)
    return path


def written(path: str, text: str) -> str:
    os.makedirs(os.path.dirname(path), exist_ok=True)
    with open(path, "w", encoding="utf-8") as file:
        file.write(text)
    return path
