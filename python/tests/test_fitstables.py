"""Tables that are put together here are those that astropy writes, to the byte."""
import warnings

import numpy
import pytest
from astropy.io import fits

from maxdetect import _fitstables as fitstables

TEXTS = ("", "short", "it's", "ends in an '", "x" * 68, "a description that goes on and on, " * 5)


@pytest.mark.parametrize("rows", [0, 1, 7])
def test_as_astropy_writes_them(tmp_path, rows):
    rng = numpy.random.default_rng(rows)
    kinds = [("i2", ()), ("i4", ()), ("i8", ()), ("f4", ()), ("f8", ()), ("u1", ()), ("f8", (2,)), ("f4", (5, 3))]
    columns = {}
    for number, (kind, sides) in enumerate(kinds):
        values = rng.integers(0, 100, (rows, *sides)).astype(kind)
        columns[f"C{number}"] = fitstables.Described(
            values, (None, "pix", "deg")[number % 3], TEXTS[number % len(TEXTS)]
        )
    columns["NAME"] = fitstables.Described(numpy.array(["ONE"] * rows, dtype="S5"), None, "a name")
    told = fits.Header([("LONGSTRN", "OGIP 1.0"), ("SIGMA", 3.5), ("IMAGE", "it's.fits")])
    with warnings.catch_warnings():
        warnings.simplefilter("ignore", fits.verify.VerifyWarning)
        fitstables.write(tmp_path / "ours.fits", columns, told)
        fitstables._by_astropy(columns, rows, told).writeto(tmp_path / "theirs.fits")
    assert (tmp_path / "ours.fits").read_bytes() == (tmp_path / "theirs.fits").read_bytes()


def test_other_kinds_are_astropys(tmp_path):
    columns = {
        "TRUE": fitstables.Described(numpy.array([True, False]), None, ""),
        "U": fitstables.Described(numpy.array([1, 2**31], dtype="u4"), None, ""),
    }
    fitstables.write(tmp_path / "ours.fits", columns, fits.Header())
    found = fits.getdata(tmp_path / "ours.fits", "SOURCES")
    assert found["TRUE"].tolist() == [True, False] and found["U"].tolist() == [1, 2**31]
