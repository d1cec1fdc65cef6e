"""Edits and their neutral twins, as scripts/twins.py reads them."""
import importlib.util
import pathlib

import pytest

TOP = pathlib.Path(__file__).resolve().parent.parent
spec = importlib.util.spec_from_file_location("twins", TOP / "scripts" / "twins.py")
twins = importlib.util.module_from_spec(spec)
spec.loader.exec_module(twins)


def test_an_edit_is_read(tmp_path):
    path = tmp_path / "one.edit"
    path.write_text("file: src/a.rt\nold:     x,\nnew:     y,\nold: p\nnew: q\n")
    assert twins.changes(path) == [("src/a.rt", "    x,", "    y,"), ("src/a.rt", "p", "q")]


def test_twins_of_one_place_are_tried_apart():
    edits = {"one": [("a", "x", "y")], "two": [("a", "x", "z")], "three": [("b", "x", "y")]}
    assert twins.apart(edits) == [["one", "three"], ["two"]]


def test_twins_of_a_text_and_of_a_part_of_it_are_tried_apart():
    edits = {"one": [("a", "    f(x, y)", "    f({ x }, y)")], "two": [("a", "f(x, y)", "f(x, { y })")]}
    assert twins.apart(edits) == [["one"], ["two"]]


def test_a_text_that_stands_twice_is_no_place(tmp_path):
    (tmp_path / "a.rt").write_text("x\nx\n")
    with pytest.raises(SystemExit):
        twins.apply(tmp_path, [("a.rt", "x", "y")])


def test_each_twin_is_one_of_an_edit_and_of_its_place():
    for path in (TOP / "tests" / "twins").glob("*/*.edit"):
        edit = TOP / "crates" / path.parent.name / "must-fail" / path.name
        places = [[(file, old) for file, old, _ in twins.changes(it)] for it in (path, edit)]
        assert places[0] == places[1], path


def test_what_a_test_stands_for_is_read():
    text = "# what it is\n\nsteps a_count_is_kept: nothing is counted\n"
    assert twins.stood_for(text) == [("steps", "a_count_is_kept", "nothing is counted")]


def test_each_test_in_place_of_an_edit_is_there():
    text = (TOP / "tests" / "twins" / "tests.txt").read_text(encoding="utf-8")
    assert all(twins.has_test(crate, name) for crate, name, _ in twins.stood_for(text))
