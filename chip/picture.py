"""Shows the first marker of a category in KLayout's marker browser, and takes a picture of the screen. See `picture`."""

from typing import Any

import pya  # type: ignore[import]

# What KLayout is run with.
category: str = globals()["category"]
target: str = globals()["target"]


def settle(times: int = 40) -> None:
    for _ in range(times):
        pya.QApplication.processEvents()


def widgets(name: str) -> list[Any]:
    return [widget for widget in pya.QApplication.allWidgets() if widget.objectName == name]


def child(model: Any, parent: Any, wanted: str) -> Any:
    """The first row under a parent whose text begins as wanted."""
    for row in range(model.rowCount(parent)):
        index = model.index(row, 0, parent)
        if str(model.data(index, 0)).startswith(wanted):
            return index
    raise RuntimeError(f"{wanted} is not in the marker browser")


def main() -> None:
    window = pya.MainWindow.instance()
    window.setGeometry(0, 0, 1280, 520)
    settle()
    tree = widgets("directory_tree")[0]
    tree.window().setGeometry(0, 520, 1280, 480)
    model = tree.model
    top = child(model, pya.QModelIndex(), "By Category")
    tree.expand(top)
    chosen = child(model, top, category)
    tree.currentIndex = chosen
    settle()
    found = widgets("markers_list")[0]
    found.currentIndex = found.model.index(0, 0, pya.QModelIndex())
    settle()
    for _ in range(3):
        pya.LayoutView.current().zoom_out()
    settle(400)
    pya.QGuiApplication.primaryScreen().grabWindow(0).save(target)


try:
    main()
except Exception as error:
    print(f"picture: {error}")
