"""What a file is that is no CIF, by how it begins, and what makes CIF of it."""

from __future__ import annotations

from typing import Optional

IMPORT = "tools/import FILE > layout.cif makes CIF of it"
SAVE = "save it as plain ASCII text"

FORMS = (
    (b"\0\6\0\2", "GDSII", IMPORT),
    (b"%SEMI-OASIS", "OASIS", IMPORT),
    (b"VERSION ", "DEF or LEF", "tools/import FILE.def --lef FILE.lef > layout.cif makes CIF of it"),
    (b"\x1f\x8b", "packed by gzip", "gunzip unpacks it, and tools/import reads GDSII and OASIS that are packed so"),
    (b"BZh", "packed by bzip2", "bunzip2 unpacks it"),
    (b"\xfd7zXZ", "packed by xz", "unxz unpacks it"),
    (b"PK\3\4", "a zip archive", "unzip unpacks it"),
    (b"\xff\xfe", "text in UTF-16", SAVE),
    (b"\xfe\xff", "text in UTF-16", SAVE),
    (b"\xef\xbb\xbf", "text that begins with a byte order mark", f"CIF has none: {SAVE}, without the mark"),
    (b"magic\n", "a cell of Magic", "cif write in Magic makes CIF of it"),
)


def other_form(text: bytes) -> Optional[str]:
    """What a text is that is no CIF, and what to do, in words; None where it may be CIF."""
    if not text.strip():
        return "this is an empty file, and no CIF"
    for head, name, what in FORMS:
        if text.startswith(head):
            return f"this is {name}, and no CIF; {what}"
    return None
