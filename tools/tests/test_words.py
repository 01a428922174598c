"""The launcher: its words, its statuses, and what it says; by the program where one stands."""

from __future__ import annotations

import os
import shutil
import tempfile
import unittest
from typing import Tuple

from common import LAYOUT, REPORT, TOP, Ran, bytes_of, ran

import completion
import kit
import manual
import units
import words
from faults import nothing_kept

LAUNCHER = os.path.join(TOP, "dpl")
ASKED = ("--layer", "M", "--space", "100", "--overlap", "20")


def dpl(*given: str, layout: bytes = b"", **settings: str) -> Ran:
    return ran(LAUNCHER, *given, given=layout, **settings)


class Own(unittest.TestCase):
    def test_help_and_version_anywhere(self) -> None:
        for given in (["split", "--help"], ["split", "--layer", "M", "-h"], ["help", "split"]):
            self.assertIn(b"usage: dpl split", dpl(*given).out, given)
        for given in (["--help"], ["-h", "nosuch"]):
            self.assertIn(b"dpl build", dpl(*given).out)
        self.assertIn(b"reads versions 1 and 2", dpl("--version").out)

    def test_wrong_words_end_with_two(self) -> None:
        for given in (["install"], ["install", "a", "b"], ["build", "now"], ["help", "nosuch"], ["version", "x"]):
            done = dpl(*given)
            self.assertEqual((done.status, done.out, done.told.count("\n")), (2, b"", 1), done.told)

    def test_a_folder_that_cannot_be_made(self) -> None:
        done = dpl("install", "/dev/null/x")
        self.assertEqual((done.status, done.told.count("\n")), (70, 1), done.told)


class Tables(unittest.TestCase):
    def test_near_words(self) -> None:
        self.assertIn("did you mean build?", words.no_command("builld"))
        wrong = words.wrong_in(["split", "--layr", "M"])
        assert wrong
        self.assertIn("did you mean --layer?", wrong.said)

    def test_a_file_behind_the_options(self) -> None:
        wrong = words.wrong_in(["split", *ASKED, LAYOUT])
        assert wrong
        self.assertIn(f"--input {LAYOUT}", wrong.said)

    def test_input_is_taken_out(self) -> None:
        self.assertEqual(words.input_of(["split", "--input", "a", *ASKED]), (["split", *ASKED], "a"))
        self.assertEqual(words.input_of(["split", *ASKED, "--input=a"]), (["split", *ASKED], "a"))
        self.assertEqual(words.input_of(["load", "--input", "a"]), (["load", "--input", "a"], None))

    def test_lengths(self) -> None:
        for value, times, plain in (("60nm", 1, "6"), ("0.06um", 10, "60"), ("63nm", 1, "63nm"), ("63nm", 10, "63"), ("60", 10, "60")):
            self.assertEqual(units.plain(value, times), plain)
        self.assertIn("--times 10", units.why_not("63nm", 1))

    def test_a_keep_layer_that_is_not_there(self) -> None:
        self.assertEqual(nothing_kept("K", b"L M;B 1 1 1 1;L  K ;B 1 1 1 1;E"), "")
        self.assertIn("nothing is on the layer K", nothing_kept("K", b"L M;B 1 1 1 1;L KK;B 1 1 1 1;E"))

    def test_completions_are_shell(self) -> None:
        self.assertEqual(ran("bash", "-n", given=completion.bash().encode()).status, 0)
        done = ran("bash", given=completion.bash().encode() + b"COMP_WORDS=(dpl split --st) COMP_CWORD=2; _dpl; echo ${COMPREPLY[@]}")
        self.assertEqual(done.out, b"--stitch\n")
        if shutil.which("zsh"):
            self.assertEqual(ran("zsh", "-n", given=completion.zsh().encode()).status, 0)

    def test_the_manual_page_has_all(self) -> None:
        page = manual.page()
        for head in ("EXAMPLE", "EXIT STATUS", "LAYOUT RULES", "LIMITS", "CONDITIONS OF A GOOD REPORT"):
            self.assertIn(f".SH {head}", page)
        self.assertIn("chip/run", page)


@unittest.skipUnless(kit.has_program(), "no program stands here")
class Program(unittest.TestCase):
    def told(self, status: int, line: str, *parts: str, layout: bytes = b"", given: Tuple[str, ...] = ("split", *ASKED)) -> None:
        """The program's own line comes first, and the words for it second, on an error output that is no terminal."""
        done = dpl(*given, layout=layout)
        self.assertEqual(done.status, status, done.told)
        own = [text for text in done.told.splitlines() if "is newer" not in text]
        self.assertEqual(own[0], line)
        for part in parts:
            self.assertIn(part, own[1])
        silent = [text for text in dpl(*given, layout=layout, DPL_WORDS="0").told.splitlines() if "is newer" not in text]
        self.assertEqual(silent, [line])

    def test_faults_in_words(self) -> None:
        self.told(2, "dpl: usage 1", "did you mean split?", given=("splt", *ASKED))
        self.told(2, "dpl: usage 3", "6.3 of them", given=("split", "--layer", "M", "--space", "63nm", "--overlap", "20"))
        self.told(3, "dpl: layout 14 at command 1", "GDSII", "tools/import", layout=b"\0\6\0\2\2\x58")
        self.told(3, "dpl: layout 1 at command 1", "UTF-16", layout="L M;E".encode("utf-16"))
        self.told(3, "dpl: layout 14 at command 1", "empty file", layout=b"")
        self.told(3, "dpl: layout 1 at command 1", "byte order mark", layout=b"\xef\xbb\xbfL M;E")
        self.told(3, "dpl: layout 1 at command 1", "\\x1b[B", layout=b"L A \x1b[B;E")
        self.told(5, "dpl: read fault", "No such file", given=("check", *ASKED, "--report", "/nothing"), layout=bytes_of(LAYOUT))

    def test_inputs(self) -> None:
        plain = dpl("split", *ASKED, layout=bytes_of(LAYOUT))
        self.assertEqual((plain.status, plain.out), (0, bytes_of(REPORT)))
        self.assertEqual(dpl("split", *ASKED, "--input", LAYOUT).out, plain.out)
        units = ("--layer", "M", "--space", "1um", "--overlap", "200nm")
        self.assertEqual(dpl("split", *units, layout=bytes_of(LAYOUT)).out, plain.out)
        large = b"(scale 10);\n" + bytes_of(LAYOUT)
        self.assertEqual(dpl("split", "--layer", "M", "--space=100nm", "--overlap=20nm", layout=large).out, plain.out)
        for name, said in (("/nothing", "No such file"), ("/tmp", "is a folder")):
            done = dpl("split", *ASKED, "--input", name)
            self.assertEqual(done.status, 5)
            self.assertIn(said, done.told)
        done = ran("bash", "-c", f'"{LAUNCHER}" split {" ".join(ASKED)} < /tmp')
        self.assertEqual(done.status, 5)
        self.assertIn("is a folder", done.told)

    def test_empty_layers_are_told(self) -> None:
        done = dpl("split", "--layer", "N", "--space", "100", "--overlap", "20", layout=bytes_of(LAYOUT))
        self.assertEqual(done.status, 0)
        self.assertIn("the layer N is empty; the layers with their numbers of primitives are M (5)", done.told)
        done = dpl("cross", "--layer", "N", "--space", "100", "--overlap", "20", layout=bytes_of(LAYOUT))
        self.assertEqual((done.status, done.out), (0, b"excess 0 none\n"))
        self.assertIn("the layer N is empty", done.told)
        self.assertNotIn("is empty", dpl("cross", *ASKED, layout=bytes_of(LAYOUT)).told)
        done = dpl("split", *ASKED, "--keep", "NOSUCH", layout=bytes_of(LAYOUT))
        self.assertEqual(done.status, 0)
        self.assertIn("nothing is on the layer NOSUCH", done.told)

    def test_sums_that_do_not_hold(self) -> None:
        with tempfile.TemporaryDirectory() as folder:
            path = os.path.join(folder, "report")
            with open(path, "wb") as file:
                file.write(bytes_of(REPORT).replace(b"(bound 2);", b"(bound 4);"))
            done = dpl("check", *ASKED, "--report", path, layout=bytes_of(LAYOUT))
        self.assertEqual(done.status, 1)
        self.assertIn("the half weights of the cycles sum to 2, and the report says bound 4", done.told)

    def test_installed(self) -> None:
        with tempfile.TemporaryDirectory() as folder:
            self.assertEqual(dpl("install", folder).status, 0)
            program = os.path.join(folder, "bin", "dpl")
            self.assertEqual(ran(program, "split", *ASKED, "--input", LAYOUT).out, bytes_of(REPORT))
            self.assertIn(b"usage", ran(program, "--help").out)
            self.assertEqual(ran(os.path.join(folder, "lib", "dpl", "tools", "layers"), LAYOUT).out, b"M 5\n")


if __name__ == "__main__":
    unittest.main()
