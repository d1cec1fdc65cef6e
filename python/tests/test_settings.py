"""What settings may be: a value out of its range is refused in one line, by the package and by the command alike."""
import math

import pytest

from maxdetect import _cli as cli
from maxdetect._limits import LISTS, RANGES, Range, Several
from maxdetect._settings import Settings

# For each setting values that are in its range, and some that aren't, with what is said of these.
NUMBERS = {
    "mesh": ([0, 8, 512], [-3, 7, 513, 8.5], "is neither 0 nor a whole number from 8 to 512"),
    "sigmas": ([1e-9, 1e6], [0, -1, 1e7, math.nan, math.inf], "isn't a number above 0 and up to 1e+06"),
    "split_sigmas": ([0, 1e6], [-0.1, 1e7, math.nan], "isn't a number from 0 to 1e+06"),
    "fwhm": ([0, 0.5, 50], [0.4, 51, -1, math.nan], "is neither 0 nor a number from 0.5 to 50"),
    "contrast": ([0, 1000], [-1, 1001, 0.5], "isn't a whole number from 0 to 1000"),
    "min_area": ([1, 2**24], [0, 1.5, 2**24 + 1], "isn't a whole number from 1 to 16777216"),
    "vignet": ([0, 3, 255], [1, 257, -3], "is neither 0 nor a whole number from 3 to 255"),
    "tile": ([1, 10**6], [0, 1.5, math.inf], "isn't a whole number from 1 on"),
    "workers": ([1, 64], [0, 65], "isn't a whole number from 1 to 64"),
    "gain": ([1e-9, 1e9], [0, -1, math.inf], "isn't a number above 0"),
    "own_gain": ([1e-9, 1e9], [0, -1, math.inf], "isn't a number above 0"),
    "saturation": ([-1e9, 0, 1e9], [math.nan, math.inf], "isn't a finite number"),
    "own_saturation": ([-1e9, 0, 1e9], [math.nan, math.inf], "isn't a finite number"),
}
SEVERAL = {
    "apertures": ([(1,), (1000.0,) * 32], [(), (0,), (1, 1001), (1,) * 33], "isn't one to 32 numbers above 0 and up"),
    "kron": ([(2.5, 3.5), (20, 20)], [(), (1,), (1, 2, 3), (0, 1), (1, 21)], "isn't two numbers above 0 and up to 20"),
}


def test_each_setting_with_a_range_is_tried():
    assert set(NUMBERS) == set(RANGES) and set(SEVERAL) == set(LISTS)
    assert set(RANGES) | set(LISTS) <= set(Settings.__dataclass_fields__)


@pytest.mark.parametrize("name", [*NUMBERS, *SEVERAL])
def test_values_in_their_range_and_out_of_it(name):
    good, bad, words = {**NUMBERS, **SEVERAL}[name]
    for value in good:
        assert getattr(Settings(**{name: value}), name) == value
    for value in bad:
        with pytest.raises(ValueError) as refused:
            Settings(**{name: value})
        assert str(refused.value).startswith(f"{name}={value} {words}") and "\n" not in str(refused.value)


def test_the_side_of_a_vignet_is_odd():
    with pytest.raises(ValueError, match="^vignet=4 isn't odd$"):
        Settings(vignet=4)


@pytest.mark.parametrize("name", ["mesh", "sigmas", "split_sigmas", "fwhm", "contrast", "min_area", "workers", "gain"])
def test_the_command_says_the_same(name, capsys):
    _, bad, words = NUMBERS[name]
    option = f"--{name.replace('_', '-')}"
    for value in bad:
        assert cli.main(["none.fits", option, str(value)]) == 2
        told = capsys.readouterr().err
        if isinstance(value, int) or not RANGES[name].whole:
            assert told == f"maxcat: argument {option}: {value} {words} (maxcat --help tells the options)\n"
        assert told.count("\n") == 1


@pytest.mark.parametrize("name", SEVERAL)
def test_the_command_says_the_same_of_several(name, capsys):
    _, bad, words = SEVERAL[name]
    for value in bad[1:]:
        text = ",".join(map(str, value))
        assert cli.main(["none.fits", f"--{name}", text]) == 2
        assert capsys.readouterr().err.startswith(f"maxcat: argument --{name}: {text} {words}")


def test_ranges_are_told_as_they_are():
    assert Range().wrong(-1e300) is None and Range(1, whole=True).wrong(3) is None
    assert Range(1, whole=True).wrong(0) == "isn't a whole number from 1 on"
    assert Several(Range(0, above=True), range(1, 3), "one or two").wrong((1, -1)) == "isn't one or two numbers above 0"
