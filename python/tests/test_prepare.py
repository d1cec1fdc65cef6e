"""examples/prepare.py: an image of whole numbers, and the command that finds its sources."""
import shlex

import numpy
import pytest
from astropy.io import fits

import maxdetect
from maxdetect import _prepare as prepare, scaling


@pytest.fixture
def here(tmp_path, monkeypatch, stars):
    """A folder with a star field, and with a flat image."""
    monkeypatch.chdir(tmp_path)
    image = stars[0].copy()
    image[3, 5:9] = numpy.nan
    fits.writeto("image.fits", image, fits.Header({"BUNIT": "adu", "OBJECT": "M 1"}))
    fits.writeto("flat.fits", numpy.ones((64, 64), dtype="f4"))
    return tmp_path


@pytest.mark.parametrize("words, threshold", [([], 68), (["--smooth"], 42), (["--sigmas", "3", "--mesh", "0"], 90)])
def test_what_is_printed_finds_the_stars(here, capsys, words, threshold):
    assert prepare.main(["image.fits", "numbers.fits", *words]) == 0
    command, _, rest = capsys.readouterr().out.partition(" < ")
    assert shlex.split(rest) == ["numbers.fits", ">", "sources.fits"]
    told = shlex.split(command)
    options = dict(zip(told[2::2], map(int, told[3::2])))
    assert told[:2] == ["maxdetect", "detect"] and options.pop("--threshold") == threshold
    assert options == {"--min-area": 5, "--connect": 8, **({} if "--mesh" in words else {"--mesh": 64})}
    numbers, header = maxdetect.load("numbers.fits"), fits.getheader("numbers.fits")
    assert numbers.mask.sum() == 4 and "BUNIT" not in header and header["OBJECT"] == "M 1"
    expected = scaling.prepared(fits.getdata("image.fits"), "--smooth" in words, 0 if "--mesh" in words else 64)
    assert (numbers == expected[0]).all() and header["MAXSCALE"] == pytest.approx(expected[2])
    mesh = options.get("--mesh", 0)
    level = 0 if mesh else int(numpy.ma.median(numbers))
    assert 20 < len(maxdetect.detect(numbers, threshold + level, min_area=5, connect=8, mesh=mesh)[0]) < 40


def test_what_goes_wrong_is_told_in_one_line(here, capsys):
    for words, told in (
        (["image.fits", "image.fits"], "image.fits is read, so it can't be written"),
        (["flat.fits", "numbers.fits"], "flat.fits[PRIMARY]: the image has no noise to scale by"),
        (["image.fits", "numbers.fits", "--mesh", "7"], "argument --mesh: 7 is neither 0 nor a whole number"),
        (["none.fits", "numbers.fits"], "none.fits: No such file or directory"),
        (["image.fits", "none/numbers.fits"], "none/numbers.fits: No such file or directory"),
    ):
        assert prepare.main(words) == 2
        out, err = capsys.readouterr()
        assert out == "" and err.startswith(f"prepare: {told}") and err.count("\n") == 1, err
    assert not (here / "numbers.fits").exists()
