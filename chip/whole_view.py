"""Before a file is loaded: all levels of cells are shown, and no tip stands in the way."""

import pya  # type: ignore[import]

application = pya.Application.instance()
application.set_config("full-hierarchy-new-cell", "true")
application.set_config("tip-window-hidden", "viewer-mode,editor-mode,only-top-level-shown-by-default")
