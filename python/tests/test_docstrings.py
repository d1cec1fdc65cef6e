"""The docstrings of public names: in numpydoc's form, and with the parameters that there are."""
import doctest
import importlib
import inspect
import re

import pytest

import maxdetect
from conftest import TOP

validate = pytest.importorskip("numpydoc.validate").validate

# The package's own way: the summary begins behind the quotes, may begin with a verb as "Gives", and may have more than
# a line. Neither examples nor references are wanted everywhere.
OWN = {"GL01", "SS05", "SS06", "ES01", "SA01", "EX01", "YD01"}


def names():
    """The public modules, functions, classes and methods by their names."""
    yield "maxdetect"
    for name in maxdetect.__all__:
        value = getattr(maxdetect, name)
        if inspect.ismodule(value):
            yield f"maxdetect.{name}"
            yield from (f"maxdetect.{name}.{it}" for it in value.__all__ if callable(getattr(value, it)))
        elif callable(value):
            yield f"maxdetect.{name}"
    methods = vars(maxdetect.Survey).items()
    yield from (f"maxdetect.Survey.{it}" for it, value in methods if callable(value) and not it.startswith("_"))


NAMES = sorted(names())


def test_the_public_names_are_looked_at():
    assert {"maxdetect.catalogue", "maxdetect.Survey.seal", "maxdetect.photometry.sky"} <= set(NAMES)
    assert len(NAMES) > 30


@pytest.mark.parametrize("name", NAMES)
def test_docstrings_have_numpydocs_form(name):
    assert [fault for fault in validate(name)["errors"] if fault[0] not in OWN] == []


@pytest.mark.parametrize("module", ["_estimates", "_matching", "_surveys", "photometry", "scaling"])
def test_examples_hold(module):
    """Those of `_kernel` are tried beside its other tests."""
    assert doctest.testmod(importlib.import_module(f"maxdetect.{module}")).failed == 0


def test_each_public_name_stands_on_a_page():
    told = set()
    for page in (TOP / "docs/sphinx").glob("*.rst"):
        module = "maxdetect"
        for word, name in re.findall(r"^ *(?:\.\. (\w+)::|:members:) (.+)$", page.read_text(encoding="utf-8"), re.M):
            if word in ("currentmodule", "automodule"):
                module = name
            told |= {f"{module}.{name}"} if word else {f"{module}.Survey.{it}" for it in name.split(", ")}
    assert set(NAMES) - {"maxdetect", "maxdetect.photometry", "maxdetect.scaling"} <= told
    assert {"maxdetect.FAULTS", "maxdetect.DESCRIPTIONS"} <= told


@pytest.mark.parametrize("name", NAMES)
def test_parameters_are_named_one_by_one(name):
    value = maxdetect
    for part in name.split(".")[1:]:
        value = getattr(value, part)
    if inspect.isfunction(value):
        kinds = {it.kind for it in inspect.signature(value).parameters.values()}
        assert not kinds & {inspect.Parameter.VAR_KEYWORD, inspect.Parameter.VAR_POSITIONAL}
        hints = inspect.signature(value)
        assert hints.return_annotation is not inspect.Signature.empty
        assert all(it.annotation is not it.empty for it in hints.parameters.values() if it.name != "self")
