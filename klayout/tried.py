"""What klayout/test has KLayout do: it asks the menu as a user does, and looks at what comes of it."""

import os
import sys
import time
import traceback

import pya

SPLIT = {"space": "0.06", "overlap": "0.02", "stitch": "1", "conflict": "10", "corner": "10"}
MOST_SECONDS = 60


def application():
    return pya.Application.instance()


def view():
    return pya.LayoutView.current()


def choose(name):
    """Chooses a layer in the layer list."""
    found = view().begin_layers()
    while not found.at_end():
        if found.current().source.startswith(name):
            view().current_layer = found
            return
        found.next()
    raise AssertionError(f"no layer {name}")


def dialog():
    return next((it for it in pya.QApplication.topLevelWidgets() if it.objectName == "double_patterning" and it.isVisible()), None)


def until(what, ready):
    """Lets KLayout go on until something is so."""
    end = time.monotonic() + MOST_SECONDS
    while not ready():
        assert time.monotonic() < end, f"{what}: not in {MOST_SECONDS} s"
        application().process_events()
        time.sleep(0.02)


def ask(**values):
    """Asks by the menu; the dialog is filled and answered by a timer, since it waits. What was warned of is told."""
    for name, value in {**SPLIT, **values}.items():
        application().set_config(f"dpl-asked-{name}", value)
    warned = []
    timer = pya.QTimer(application().main_window())
    timer.timeout(lambda: answer(timer, warned))
    timer.start(200)
    application().main_window().menu().action("tools_menu.double_patterning").trigger()
    timer.stop()
    return warned


def answer(timer, warned):
    shown = dialog()
    if shown:
        shown.accept()
        return
    box = pya.QApplication.activeModalWidget()
    if hasattr(box, "text"):
        warned.append(box.text)
        box.accept()


def region(cell, name):
    layout = view().active_cellview().layout()
    index = next(index for index in layout.layer_indexes() if layout.get_info(index).name == name)
    return pya.Region(cell.begin_shapes_rec(index))


def split():
    """The block comes out as the tour has it: two conflicts in MUX, eight stitches, masks that together are the layer."""
    choose("15/0")
    ask()
    until("markers", lambda: view().num_rdbs() == 1)
    cell, found = view().active_cellview().cell, view().rdb(0)
    counts = {it.name(): it.num_items() for it in found.each_category()}
    assert (counts["conflict"], counts["stitch"], counts["notch"]) == (2, 8, 0), counts
    assert "cost 28, and no masks cost less than 28" in found.description, found.description
    texts = [value.to_s() for item in found.each_item() for value in item.each_value()]
    assert sum("in cell MUX: conflict" in text for text in texts) == 2, texts
    layer = pya.Region(cell.begin_shapes_rec(view().active_cellview().layout().layer(15, 0)))
    masks = [region(cell, f"L15D0 mask {letter}") for letter in "AB"]
    assert ((masks[0] + masks[1]).merged() ^ layer.merged()).is_empty(), "the masks are not the layer"
    assert not masks[0].is_empty() and not masks[1].is_empty()


def again():
    """A second run writes over the first one, and its markers stand in place of the first ones."""
    layers = len(view().active_cellview().layout().layer_indexes())
    choose("15/0")
    ask(conflict="1", corner="1")
    until("markers again", lambda: "cost 10" in view().rdb(0).description)
    assert view().num_rdbs() == 1 and len(view().active_cellview().layout().layer_indexes()) == layers


def undone():
    """The masks can be taken back, and come again."""
    layout, menu = view().active_cellview().layout(), application().main_window().menu()
    for word, stands in (("undo", False), ("redo", True)):
        menu.action(f"edit_menu.{word}").trigger()
        named = [layout.get_info(index).name for index in layout.layer_indexes()]
        assert ("L15D0 mask A" in named) == stands, (word, named)


def refused():
    """What cannot be asked is told, and nothing is split."""
    choose("15/0")
    assert "whole number" in ask(space="0.0605")[0]
    assert "a number is wanted" in ask(overlap="wide")[0]


def stopped():
    """The button of the window ends the program."""
    from dpl_menu import running

    ended = []
    run = running.Run("Double Patterning", ["sleep", "600"], b"", lambda *answer: ended.append(answer))
    run.window.cancel()
    until("the end", lambda: not running.Run.held)
    assert run.process.poll() is not None and not ended


def within(widget, name):
    """The part of a window that has a name."""
    for child in widget.children():
        found = child if child.objectName == name else within(child, name)
        if found is not None:
            return found
    return None


def picture(path):
    """The layout with its masks, and the marker browser beside it."""
    window = application().main_window()
    window.move(0, 0)
    window.resize(1180, 740)
    browser = next(it for it in pya.QApplication.topLevelWidgets() if it.windowTitle.startswith("Marker"))
    browser.move(8, 250)
    browser.resize(620, 470)
    for name in ("7/0", "235/0"):
        choose(name)
        view().current_layer.current().visible = False
    tree, markers = within(browser, "directory_tree"), within(browser, "markers_list")
    by_category = tree.model.index(1, 0, pya.QModelIndex())
    tree.expand(by_category)
    tree.setCurrentIndex(tree.model.index(0, 0, by_category))
    markers.setCurrentIndex(markers.model.index(0, 0, pya.QModelIndex()))
    view().zoom_box(pya.DBox(0.2, 0.3, 2.2, 1.6))
    until("the picture", drawn(time.monotonic() + 2))
    shown = pya.QApplication.primaryScreen().grabWindow(0, 0, 0, 1180, 740)
    shown.save(path, "PNG", 0)


def drawn(end):
    return lambda: time.monotonic() > end


def run():
    status = 1
    try:
        split()
        undone()
        picture(os.environ["MENU_TEST_PICTURE"])
        again()
        refused()
        stopped()
        print("the menu splits, shows, splits again, refuses and stops as it should", flush=True)
        status = 0
    except BaseException:
        traceback.print_exc()
    sys.stderr.flush()
    # KLayout would ask whether the layout is to be saved
    os._exit(status)


begin = pya.QTimer(application().main_window())
begin.singleShot = True
begin.timeout(run)
begin.start(1500)
