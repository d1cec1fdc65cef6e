"""What a small image doesn't load, and that what stands in its place gives the same to the last bit."""
import ast
import gc
import os
import subprocess
import sys

import numpy
import pytest
from astropy import units
from astropy.io import fits
from scipy import ndimage

from conftest import TOP, add_star
from maxdetect import _sky as sky, _skyplaces as skyplaces, _smoothing as smoothing, _unittexts as unittexts
from maxdetect._finishing import COLUMNS

HEAVY = (
    "astropy.table",
    "astropy.units",
    "astropy.wcs",
    "astropy.coordinates",
    "scipy.ndimage",
    "scipy.special",
    "tqdm",
)
SKY = {
    **{"CTYPE1": "RA---TAN", "CTYPE2": "DEC--TAN", "CRVAL1": 150.0, "CRVAL2": 2.0, "CRPIX1": 500.0, "CRPIX2": 32.0},
    **{"CDELT1": -1e-4, "CDELT2": 1e-4},
}
SCRIPT = f"""
import sys
from maxdetect import _cli as cli
status = cli.main(sys.argv[1:])
print([name for name in {HEAVY} if name in sys.modules])
sys.exit(status)
"""


def test_a_small_image_loads_no_more_than_it_wants(tmp_path, stars):
    fits.writeto(tmp_path / "image.fits", stars[0], fits.Header({"BUNIT": "adu"}))
    words = [sys.executable, "-c", SCRIPT, "image.fits", "-o", "cat.fits", "--zeropoint", "25", "--regions", "all.reg"]
    environment = {**os.environ, "PYTHONPATH": str(TOP / "python")}
    done = subprocess.run(words, cwd=tmp_path, env=environment, stdout=subprocess.PIPE, text=True, check=True)
    assert done.stdout.splitlines()[-1] == "[]"
    assert "MAG_AUTO" in fits.getdata(tmp_path / "cat.fits", 1).names


WIDE_SCRIPT = f"""
import sys
from maxdetect import _cataloguing as cataloguing, _cli as cli
finished = cataloguing._finished
def watched(*given):
    print([name for name in {HEAVY} if name in sys.modules])
    return finished(*given)
cataloguing._finished = watched
sys.exit(cli.main(sys.argv[1:]))
"""


@pytest.mark.parametrize("cards, loaded", [({}, []), (SKY, ["astropy.table", "astropy.units", "astropy.wcs"])])
def test_what_the_end_wants_is_loaded_while_others_work(tmp_path, cards, loaded):
    image = numpy.random.default_rng(3).normal(100, 5, (64, 1100))
    for x in range(40, 1080, 60):
        add_star(image, x, 30, 9e3)
    fits.writeto(tmp_path / "image.fits", image.astype("f4"), fits.Header(cards))
    words = [sys.executable, "-c", WIDE_SCRIPT, "image.fits", "-o", "cat.fits", "--workers", "2"]
    environment = {**os.environ, "PYTHONPATH": str(TOP / "python")}
    done = subprocess.run(words, cwd=tmp_path, env=environment, stdout=subprocess.PIPE, text=True, check=True)
    assert set(loaded) <= set(ast.literal_eval(done.stdout.splitlines()[0])) and (loaded or done.stdout[:2] == "[]")
    assert ("RA" in fits.getdata(tmp_path / "cat.fits", 1).names) == bool(loaded)


FORKED_SCRIPT = f"""
import os, sys
from maxdetect import _cataloguing as cataloguing, _cli as cli
done = cataloguing.done
def watched(*given):
    # In one write: Python may write a line and its end one after the other, and both workers at once.
    os.write(1, str([os.getpid(), *(name for name in {HEAVY} if name in sys.modules)]).encode() + bytes([10]))
    return done(*given)
cataloguing.done = watched
sys.exit(cli.main(sys.argv[1:]))
"""


@pytest.mark.parametrize("cards, loaded", [({}, []), (SKY, ["astropy.table", "astropy.units", "astropy.wcs"])])
def test_what_workers_want_is_loaded_once(tmp_path, stars, cards, loaded):
    names = ["one.fits", "two.fits"]
    for name in names:
        fits.writeto(tmp_path / name, stars[0], fits.Header(cards))
    words = [sys.executable, "-c", FORKED_SCRIPT, *names, "--workers", "2"]
    environment = {**os.environ, "PYTHONPATH": str(TOP / "python")}
    done = subprocess.run(words, cwd=tmp_path, env=environment, stdout=subprocess.PIPE, text=True, check=True)
    lines = [ast.literal_eval(line) for line in done.stdout.splitlines() if line.startswith("[")]
    assert len(lines) == 2
    # A quick worker may do both images: what it had loaded before the first one counts.
    found = {process: names for process, *names in reversed(lines)}
    assert all(set(loaded) <= set(names) and (loaded or not names) for names in found.values())


@pytest.mark.parametrize("collects", [False, True])
def test_python_looks_for_garbage_afterwards_as_before(monkeypatch, collects):
    before = gc.isenabled()
    try:
        (gc.enable if collects else gc.disable)()
        skyplaces.load(fits.Header(SKY))
        assert gc.isenabled() == collects
        # An import that fails, as where astropy is half there.
        monkeypatch.setitem(sys.modules, "astropy.wcs", None)
        monkeypatch.delattr(sys.modules["astropy"], "wcs", raising=False)
        with pytest.raises(ImportError):
            skyplaces.load(fits.Header(SKY))
        assert gc.isenabled() == collects
        skyplaces.load(fits.Header({"OBJECT": "none"}))
    finally:
        (gc.enable if before else gc.disable)()


def spelled(text):
    """A unit as astropy spells it for FITS."""
    unit = units.Unit(text, parse_strict="silent")
    try:
        return unit.to_string("fits")
    except ValueError:
        return str(unit)


@pytest.mark.filterwarnings("ignore::astropy.units.UnitsWarning")
def test_units_are_spelled_as_astropy_does():
    assert unittexts.IN_FITS == {text: spelled(text) for text in unittexts.IN_FITS}
    assert {unit for unit, _ in COLUMNS.values() if unit not in (None, "FLUX")} <= set(unittexts.IN_FITS)
    for text in ("furlongs", "1e-20 erg/s/cm^2/Angstrom", "nanomaggy", "m"):
        assert unittexts.in_fits(text) == spelled(text)


def grids(count, most):
    """Grids of random numbers, of which some are alike."""
    rng = numpy.random.default_rng(count)
    for _ in range(count):
        grid = rng.normal(size=rng.integers(1, most, 2))
        grid[rng.random(grid.shape) < 0.2] = 0.5
        yield rng, grid


def test_the_nearest_that_is_known_is_that_of_scipy():
    for rng, grid in grids(300, 14):
        known = rng.random(grid.shape) < rng.choice([0.05, 0.3, 0.7])
        known.flat[rng.integers(known.size)] = True
        wanted = ndimage.distance_transform_edt(~known, return_distances=False, return_indices=True)
        rows, columns = numpy.nonzero(~known)
        assert (numpy.array(sky._nearest(known, rows, columns)) == wanted[:, rows, columns]).all()
        assert (sky.filled(grid, known) == grid[tuple(wanted)]).all()


def test_medians_are_those_of_scipy():
    for _, grid in grids(200, 9):
        assert (sky.medians(grid) == ndimage.median_filter(grid, size=3, mode="nearest")).all()


@pytest.mark.parametrize("width", [0.5, 2.0, 3.7, 15.0])
def test_sums_along_rows_are_those_of_scipy(width):
    reach = smoothing.margin(width)
    weights = numpy.exp(-0.5 * (numpy.arange(-reach, reach + 1) * smoothing.WIDTH / width) ** 2)
    for _, grid in grids(50, 90):
        own, theirs = smoothing._along(grid, weights), ndimage.correlate1d(grid, weights, 1, mode="constant")
        assert (own == theirs).all()
