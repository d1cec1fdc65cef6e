"""The options of `maxcat`, beside what is written of them."""
import pathlib
import re

import pytest

pytest.importorskip("astropy", reason="the package wants astropy (Debian: python3-astropy)")

from maxdetect._options import parser  # noqa: E402

TOP = pathlib.Path(__file__).resolve().parent.parent.parent
OPTION = re.compile(r"(?<![\w-])--[a-z][a-z-]+")


def options():
    """Each option with its action, but for those that argparse makes."""
    found = [action for action in parser()._actions if action.option_strings and action.dest not in ("help", "version")]
    return {name: action for action in found for name in action.option_strings if name.startswith("--")}


def test_the_man_page_has_each_option_and_no_other():
    text = (TOP / "docs/maxcat.1").read_text(encoding="utf-8").replace("\\-", "-")
    headed = re.findall(r"^\.TP\n\.(?:BI?|BR) ?(.*)$", text, re.M)
    told = {name for line in headed for name in OPTION.findall(line)} - {"--help", "--version"}
    assert told == set(options())


def test_the_completion_has_each_option_and_no_other():
    text = (TOP / "completion/maxcat").read_text(encoding="utf-8")
    listed = set(OPTION.findall(re.search(r'words="(--help.*?)"', text, re.S)[1]))
    assert listed == set(options()) | {"--help", "--version"}
    valued = {name for name, action in options().items() if action.nargs != 0}
    cases = set(OPTION.findall(text[: text.index("*)")]))
    assert cases == valued
    for name, action in options().items():
        if action.choices and name != "--format":
            words = re.search(rf"{name}[^)]*\) words=\"([^\"]*)\"", text)[1].split()
            assert sorted(words) == sorted(map(str, action.choices)), name


def test_pages_name_no_option_that_is_not_there():
    theirs = {"--help", "--version"}
    for page in ("docs/GUIDE.md", "docs/ANSWERS.md", "docs/TOUR.md"):
        text = (TOP / page).read_text(encoding="utf-8")
        for line in re.findall(r"(?:^|[\s./`])maxcat (?!=)([^\n`|]*)", text):
            named = set(OPTION.findall(line.split("#")[0]))
            assert named <= set(options()) | theirs, (page, line)


def test_the_guide_tells_where_each_option_is_for():
    text = (TOP / "docs/GUIDE.md").read_text(encoding="utf-8")
    # What stands with another option, and -o.
    beside = {"--output", "--field", "--survey-unit", "--band-zeropoint", "--measure-weight-type"}
    assert {name for name in options() if name not in text} <= beside
