"""The package's loops in C: where they are found, and that a catalogue is the same without them."""
import os
import shutil
import subprocess
import sys

import numpy
import pytest
from astropy.io import fits
from conftest import TOP, add_star

from maxdetect import _loops as loops


@pytest.fixture(scope="session")
def compiled(tmp_path_factory):
    """The library, compiled anew."""
    compiler = shutil.which(os.environ.get("CC", "cc"))
    # It may stand there without the C library's headers.
    headers = [compiler or "false", "-E", "-"]
    if subprocess.run(headers, input=b"#include <math.h>", capture_output=True).returncode:
        pytest.skip("the loops in C want gcc and libc6-dev")
    library = tmp_path_factory.mktemp("loops") / "libloops.so"
    subprocess.run([TOP / "scripts" / "loops", library], check=True)
    return library


@pytest.fixture(scope="session")
def field(tmp_path_factory):
    """A crowd with galaxies, undefined pixels, and stars that the image's edge cuts."""
    rng = numpy.random.default_rng(3)
    image = numpy.full((420, 390), 300.0)
    for x, y, flux, width in zip(*rng.uniform((0, 0, 3, 2.5), (390, 420, 5, 6), (260, 4)).T):
        add_star(image, x, y, 10**flux, width)
    image = rng.poisson(image).astype("f4")
    image[rng.random(image.shape) < 0.001] = numpy.nan
    image[200:230, 100:104] = numpy.nan
    folder = tmp_path_factory.mktemp("field")
    fits.writeto(folder / "image.fits", image, fits.Header({"GAIN": 1.0, "SATURATE": 30000.0}))
    fits.writeto(folder / "weight.fits", numpy.where(numpy.arange(390) < 200, 1, 2) * numpy.ones_like(image))
    return folder


def found(monkeypatch, library=None):
    """The library that is found anew, with this one named by the environment, if any is."""
    monkeypatch.delenv("MAXDETECT_LOOPS", raising=False)
    if library is not None:
        monkeypatch.setenv("MAXDETECT_LOOPS", os.fspath(library))
    return loops.library.__wrapped__()


def test_the_environment_names_a_library_or_none(monkeypatch, tmp_path, compiled):
    assert found(monkeypatch, compiled) is not None
    assert found(monkeypatch, "") is None
    assert found(monkeypatch, tmp_path / "missing.so") is None
    (tmp_path / "broken.so").write_text("no library")
    assert found(monkeypatch, tmp_path / "broken.so") is None


def test_a_library_that_is_older_than_a_source_is_left(monkeypatch, tmp_path, compiled):
    monkeypatch.setattr(loops, "PLACE", tmp_path / "libloops.so")
    monkeypatch.setattr(loops, "SOURCES", tmp_path)
    assert found(monkeypatch) is None
    shutil.copy(compiled, loops.PLACE)
    assert found(monkeypatch) is not None
    (tmp_path / "sky.c").write_text("")
    os.utime(loops.PLACE, (1, 1))
    assert found(monkeypatch) is None


@pytest.mark.parametrize(
    "words",
    [
        [],
        ["--workers", "2", "--apertures", "6,12"],
        ["--fwhm", "0", "--mesh", "0"],
        ["--weight", "weight.fits"],
        ["--rms", "local", "--wide", "--vignet", "15"],
    ],
)
def test_a_catalogue_is_the_same_without_the_loops(field, compiled, tmp_path, words):
    said = []
    for library in (compiled, ""):
        environment = {**os.environ, "PYTHONPATH": str(TOP / "python"), "MAXDETECT_LOOPS": os.fspath(library)}
        output = ["-o", tmp_path / "catalogue.csv", "--map", tmp_path / "map.fits"]
        command = [sys.executable, "-m", "maxdetect._cli", "image.fits", *words, *output]
        line = subprocess.run(command, cwd=field, env=environment, check=True, capture_output=True).stdout
        said.append((line, *((tmp_path / name).read_bytes() for name in ("catalogue.csv", "map.fits"))))
    assert int(said[0][0].split()[0]) > 100
    assert said[0] == said[1]
