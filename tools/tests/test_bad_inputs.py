"""Each tool on bad inputs: one line on the error output, a status, and never a traceback."""

from __future__ import annotations

import os
import subprocess
import sys
import tempfile
import unittest
from typing import Dict, List

from common import LAYOUT, REPORT, TOOLS, Ran, bytes_of, tool

GDS = b"\0\6\0\2\2\x58\0\x1c\1\2" + bytes(20)

# each tool with the words behind the file that it reads
CALLS: Dict[str, List[str]] = {
    "import": [],
    "layers": [],
    "command": ["1"],
    "masks": ["--from", LAYOUT],
    "markers": ["--from", LAYOUT],
    "draw": ["--from", LAYOUT],
    "summary": [],
    "anchor": ["--from", LAYOUT, "--on-a", "M"],
}


def bad_files(folder: str) -> Dict[str, str]:
    """Eight inputs that are of no use to any tool, by what is wrong with them."""
    report = bytes_of(REPORT)
    contents = {
        "empty": b"",
        "GDSII that is cut off": GDS,
        "UTF-16": "(dpl 2);\n".encode("utf-16"),
        "packed": b"\x1f\x8b\x08" + bytes(9),
        "bytes without sense": bytes(range(256)) * 4,
        "a report that is cut off": report[: len(report) // 2],
    }
    found = {"no file": os.path.join(folder, "nothing"), "a folder": folder}
    for what, content in contents.items():
        found[what] = os.path.join(folder, what.replace(" ", "-"))
        with open(found[what], "wb") as file:
            file.write(content)
    return found


class BadInputs(unittest.TestCase):
    def setUp(self) -> None:
        holder = tempfile.TemporaryDirectory()
        self.addCleanup(holder.cleanup)
        self.folder = holder.name
        self.files = bad_files(self.folder)

    def test_one_line_and_a_status(self) -> None:
        for name, words in CALLS.items():
            for what, path in self.files.items():
                with self.subTest(tool=name, input=what):
                    if name == "command" and what not in ("no file", "a folder"):
                        # it shows the command of any text, and says besides what the text is
                        self.assertNotIn("Traceback", tool(name, path, *words).told)
                        continue
                    self.refused(name, tool(name, path, *words))

    def refused(self, name: str, done: Ran) -> None:
        self.assertEqual((done.status, done.out), (1, b""), done.told)
        self.assertEqual(done.told.count("\n"), 1, done.told)
        self.assertTrue(done.told.startswith(f"{name}: "), done.told)

    def test_a_file_is_named_once(self) -> None:
        for name, words in CALLS.items():
            with self.subTest(tool=name):
                self.assertEqual(tool(name, "nothing", *words).told.count("nothing"), 1)

    def test_wrong_words(self) -> None:
        for name in CALLS:
            wrong: List[List[str]] = [[], ["--nosuch"], [LAYOUT, "1", "2", "3"]]
            for words in wrong:
                with self.subTest(tool=name, words=words):
                    done = tool(name, *words)
                    self.assertEqual((done.status, done.out), (2, b""), done.told)
                    self.assertEqual(done.told.count("\n"), 1, done.told)

    def test_help(self) -> None:
        for name in CALLS:
            with self.subTest(tool=name):
                done = tool(name, "--help")
                self.assertEqual((done.status, done.told), (0, ""))
                self.assertIn(f"tools/{name}".encode(), done.out)

    def test_what_a_file_is(self) -> None:
        for name in ("layers", "masks"):
            self.assertIn("tools/import", tool(name, self.files["GDSII that is cut off"], *CALLS[name]).told)

    def test_readers_that_go(self) -> None:
        for words in (["draw", REPORT, "--from", LAYOUT], ["masks", REPORT, "--from", LAYOUT], ["layers", LAYOUT]):
            with self.subTest(tool=words[0]):
                command = [sys.executable, os.path.join(TOOLS, words[0]), *words[1:]]
                with subprocess.Popen(command, stdout=subprocess.PIPE, stderr=subprocess.PIPE) as process:
                    assert process.stdout and process.stderr
                    process.stdout.close()
                    self.assertEqual(process.stderr.read(), b"")
                self.assertEqual(process.returncode, 141)

    def test_a_full_disk(self) -> None:
        with open("/dev/full", "wb") as full:
            words = [sys.executable, os.path.join(TOOLS, "layers"), LAYOUT]
            done = subprocess.run(words, stdout=full, stderr=subprocess.PIPE, check=False)
        self.assertEqual((done.returncode, done.stderr.count(b"\n")), (1, 1))


class Numbers(unittest.TestCase):
    """Reports whose numbers name what is not there."""

    def test_each_line(self) -> None:
        text = bytes_of(REPORT)
        lines = text.splitlines(True)
        with tempfile.TemporaryDirectory() as folder:
            path = os.path.join(folder, "report")
            for at, line in enumerate(lines):
                if not line.startswith((b"(cut", b"(clash", b"(cycle", b"(masks", b"(space", b"(bonds", b"(cost", b"(layer")):
                    continue
                for other in (b"", b"(cut 1);\n", line.replace(b"0", b"999999999999"), line.upper()):
                    with open(path, "wb") as file:
                        file.write(b"".join([*lines[:at], other, *lines[at + 1 :]]))
                    for name in ("markers", "draw", "summary"):
                        done = tool(name, path, *["--divide", "1"] * (name != "summary"))
                        self.assertIn(done.status, (0, 1), done.told)
                        self.assertNotIn("fault of the tool", done.told, other)
                        self.assertNotIn("Traceback", done.told)


if __name__ == "__main__":
    unittest.main()
