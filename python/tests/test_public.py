"""Which names are public, what becomes of the others, and that the package says so to tools."""
import ast
import os
import pickle
import re
import subprocess
import sys

import pytest

import maxdetect
from conftest import TOP
from maxdetect import _detection as detection

NAMES = """
DESCRIPTIONS FAULTS Mistake NoProgram Refusal Survey add catalogue detect detect_tiles filter find_program load match
measure noise noise_map photometry read save scaling survey tree
""".split()
PACKAGE = TOP / "python" / "maxdetect"
MODULES = sorted(path.stem for path in PACKAGE.glob("*.py") if not path.stem.startswith("__"))


def test_these_names_are_public_and_no_others():
    assert sorted(maxdetect.__all__) == dir(maxdetect) == NAMES
    assert [name for name in MODULES if not name.startswith("_")] == ["photometry", "scaling"]
    for name in NAMES:
        assert getattr(maxdetect, name) is not None


@pytest.mark.parametrize("name", ["photometry", "scaling"])
def test_public_modules_have_the_names_that_they_list(name):
    module = getattr(maxdetect, name)
    assert all(hasattr(module, it) for it in module.__all__)


def test_no_function_has_the_name_of_a_module():
    for name in set(NAMES) - {"photometry", "scaling"}:
        with pytest.raises(ModuleNotFoundError):
            __import__(f"maxdetect.{name}")
    with pytest.raises(AttributeError, match="no attribute 'kernel'"):
        getattr(maxdetect, "kernel")


def test_documents_import_public_names_alone():
    for path in [TOP / "README.md", *sorted((TOP / "docs").glob("*.md")), *sorted((TOP / "docs").glob("*.1"))]:
        if path.name in ("ARCHITECTURE.md", "DECISIONS.md"):
            continue
        text = path.read_text(encoding="utf-8")
        told = re.findall(r"\bmaxdetect\.([A-Za-z]\w+)", re.sub(r"maxdetect\.(1|cli)\b|share/maxdetect\S*", "", text))
        assert set(told) <= {*NAMES, "survey"}, path


def test_help_loads_no_library():
    """So it is there in a tenth of a second."""
    script = (
        "import sys\nfrom maxdetect import _cli\ntry:\n    _cli.main(['--help'])\nfinally:\n    print(*sys.modules)"
    )
    environment = {**os.environ, "PYTHONPATH": str(TOP / "python")}
    done = subprocess.run([sys.executable, "-c", script], env=environment, capture_output=True, text=True, check=False)
    loaded = done.stdout.splitlines()[-1].split()
    assert "maxdetect._options" in loaded
    assert not {"numpy", "astropy", "scipy", "sep"} & set(loaded)
    assert {name for name in loaded if name.startswith("maxdetect")} <= {
        "maxdetect",
        *(f"maxdetect.{name}" for name in ("_asked", "_cli", "_columns", "_errors", "_likesex", "_limits", "_options")),
        *(f"maxdetect.{name}" for name in ("_starting", "_telling", "_words")),
    }


def test_what_workers_are_sent_and_send_can_be_pickled():
    settings = detection.Settings(sigmas=4.0)
    assert pickle.loads(pickle.dumps(settings)) == settings
    refusal = maxdetect.Refusal(2, 12, "ImageTooLarge", "a side above 65,535 pixels")
    assert str(pickle.loads(pickle.dumps(refusal))) == str(refusal)


def test_tools_are_told_that_there_are_types():
    assert (PACKAGE / "py.typed").exists()
    assert "py.typed" in (TOP / "python/pyproject.toml").read_text(encoding="utf-8")
    assert "py.typed" in (TOP / "scripts/install").read_text(encoding="utf-8")


def imported(path):
    """The modules of the package that a module loads, at once or when they are wanted."""
    tree = ast.parse(path.read_text(encoding="utf-8"))
    for_types = {
        line
        for part in ast.walk(tree)
        if isinstance(part, ast.If) and "TYPE_CHECKING" in ast.unparse(part.test)
        for line in part.body
    }
    own = [it for it in ast.walk(tree) if isinstance(it, ast.ImportFrom) and it.level == 1 and it not in for_types]
    names = {name for it in own for name in ([it.module] if it.module else [alias.name for alias in it.names])}
    return names & set(MODULES)


def test_modules_stand_on_each_other_in_one_direction():
    left = {name: imported(PACKAGE / f"{name}.py") for name in MODULES}
    while left:
        lowest = {name for name, below in left.items() if not below & set(left)}
        assert lowest, f"these stand on each other in a circle: {sorted(left)}"
        left = {name: below for name, below in left.items() if name not in lowest}


def test_each_module_stands_in_the_architecture():
    text = (TOP / "docs/ARCHITECTURE.md").read_text(encoding="utf-8").partition("## The Python package")[2]
    told = re.findall(r"`(_?[a-z]+(?:_[a-z]+)*)`", text)
    assert set(MODULES) <= set(told)


def test_images_and_surveys_load_no_sep():
    """They want neither the program nor SEP, which is a wheel of its own for each Python."""
    script = "import sys, maxdetect; maxdetect.save, maxdetect.survey, maxdetect.load; print('sep' in sys.modules)"
    environment = {**os.environ, "PYTHONPATH": str(TOP / "python")}
    done = subprocess.run([sys.executable, "-c", script], env=environment, capture_output=True, text=True, check=True)
    assert done.stdout == "False\n"
