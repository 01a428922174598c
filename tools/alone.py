"""Runs a script of KLayout by its Python module, which starts in a tenth of the time: alone.py SCRIPT NAME=VALUE.."""

import runpy
import sys

# the klayout.py of this folder is another
del sys.path[0]
import klayout.db  # type: ignore[import]

sys.modules["pya"] = klayout.db
runpy.run_path(sys.argv[1], dict(word.split("=", 1) for word in sys.argv[2:]))
