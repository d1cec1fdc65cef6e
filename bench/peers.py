"""Programs that find sources, each at its defaults unless words say otherwise, with one form of answer.

Each of `PROGRAMS` takes a field's pixels in electrons and words of its own, and answers what it found. Programs that
aren't installed (Debian: `source-extractor`, `gnuastro`, `python3-photutils`) are left out of `there()`.
"""
import contextlib
import dataclasses
import importlib.util
import os
import pathlib
import shutil
import subprocess
import sys
import tempfile
import time
from typing import Callable, Dict, List

import numpy
from astropy.io import fits
from astropy.table import Table

TOP = pathlib.Path(__file__).resolve().parent.parent
CONFIGURATION = pathlib.Path("/usr/share/source-extractor")
CLUMPS = "--clumpscat --ids -x -y --brightness --brightnesserr --area".split()


@dataclasses.dataclass
class Found:
    """What a program found: centres from 0, total fluxes with errors, how many pixels each has, and the seconds."""

    x: numpy.ndarray
    y: numpy.ndarray
    flux: numpy.ndarray
    error: numpy.ndarray
    area: numpy.ndarray
    seconds: float

    def __len__(self):
        return len(self.x)


def _columns(table, names, seconds, first=1) -> Found:
    """Columns of a table by their names; places count from `first` there."""
    x, y, flux, error, area = (numpy.asarray(table[name], dtype="f8") for name in names)
    return Found(x - first, y - first, flux, error, area, seconds)


def _nothing(seconds: float) -> Found:
    return Found(*(numpy.zeros(0) for _ in range(5)), seconds)


@contextlib.contextmanager
def _written(image: numpy.ndarray):
    """A folder with the image as a file in it."""
    with tempfile.TemporaryDirectory() as folder:
        fits.writeto(pathlib.Path(folder) / "image.fits", numpy.asarray(image, dtype="f4"))
        yield pathlib.Path(folder)


def _run(words: List[str], folder: pathlib.Path, **more) -> float:
    """Runs a program in a folder, and says how long it took."""
    begun = time.perf_counter()
    done = subprocess.run([str(word) for word in words], cwd=folder, capture_output=True, text=True, **more)
    if done.returncode:
        raise RuntimeError(f"{words[0]}: {done.stderr[-300:]}")
    return time.perf_counter() - begun


def maxcat(image: numpy.ndarray, *words: str) -> Found:
    with _written(image) as folder:
        environment = {**os.environ, "PYTHONPATH": str(TOP / "python"), "OMP_NUM_THREADS": "1"}
        words = [sys.executable, "-m", "maxdetect._cli", "image.fits", "-o", "found.fits", "--gain", "1", *words]
        seconds = _run(words, folder, env=environment)
        table = Table.read(folder / "found.fits")
        return _columns(table, ("X", "Y", "FLUX_TOTAL", "FLUXERR_TOTAL", "AREA"), seconds)


def source_extractor(image: numpy.ndarray, *words: str) -> Found:
    names = ("X_IMAGE", "Y_IMAGE", "FLUX_AUTO", "FLUXERR_AUTO", "ISOAREA_IMAGE")
    settings = {
        "PARAMETERS_NAME": "names.param", "FILTER_NAME": CONFIGURATION / "default.conv",
        "STARNNW_NAME": CONFIGURATION / "default.nnw", "CATALOG_TYPE": "FITS_1.0", "CATALOG_NAME": "found.fits",
        "GAIN": 1, "SATUR_LEVEL": 1e9, "NTHREADS": 1, "MEMORY_OBJSTACK": 60000, "MEMORY_PIXSTACK": 4000000,
        "VERBOSE_TYPE": "QUIET",
    }  # fmt: skip
    given = [word for name, value in settings.items() for word in (f"-{name}", value)]
    with _written(image) as folder:
        (folder / "names.param").write_text("\n".join(names))
        seconds = _run(["source-extractor", "image.fits", "-c", CONFIGURATION / "default.sex", *given, *words], folder)
        return _columns(Table.read(folder / "found.fits"), names, seconds)


def photutils(image: numpy.ndarray, sigmas: str = "1.5") -> Found:
    """As its documents show it: a median background, a Gaussian of three pixels, ten pixels, and deblending."""
    from astropy.convolution import convolve
    from photutils.background import Background2D, MedianBackground
    from photutils.segmentation import SourceCatalog, deblend_sources, detect_sources, make_2dgaussian_kernel
    from photutils.utils import calc_total_error

    begun = time.perf_counter()
    sky = Background2D(image, (64, 64), filter_size=(3, 3), bkg_estimator=MedianBackground())
    residual = image - sky.background
    smooth = convolve(residual, make_2dgaussian_kernel(3.0, size=5))
    segments = detect_sources(smooth, float(sigmas) * sky.background_rms, npixels=10)
    if segments is None:
        return _nothing(time.perf_counter() - begun)
    segments = deblend_sources(smooth, segments, npixels=10, nlevels=32, contrast=0.001, progress_bar=False)
    error = calc_total_error(residual, sky.background_rms, 1.0)
    found = SourceCatalog(residual, segments, convolved_data=smooth, error=error)
    table = found.to_table(("xcentroid", "ycentroid", "kron_flux", "kron_fluxerr", "area"))
    return _columns(table, table.colnames, time.perf_counter() - begun, first=0)


def noisechisel(image: numpy.ndarray, *words: str) -> Found:
    """The clumps of NoiseChisel and Segment."""
    with _written(image) as folder:
        steps = [
            ["astnoisechisel", "image.fits", "-h0", "-o", "detected.fits", *words],
            ["astsegment", "detected.fits", "-o", "clumps.fits"],
            ["astmkcatalog", "clumps.fits", "-o", "found.fits", *CLUMPS],
        ]
        begun = time.perf_counter()
        try:
            for step in steps:
                _run([*step, "-q", "--numthreads=1"], folder)
        except RuntimeError:
            return _nothing(time.perf_counter() - begun)
        seconds = time.perf_counter() - begun
        with fits.open(folder / "found.fits") as hdus:
            table = Table(hdus[-1].data)
        flux, error = (name for name in table.colnames if name.startswith("BRIGHTNESS"))
        return _columns(table, ("X", "Y", flux, error, "AREA"), seconds)


@dataclasses.dataclass
class Program:
    """A program by the name that tables have for it, and what it wants to be there."""

    name: str
    find: Callable[..., Found]
    wants: Callable[[], bool]


def _has_photutils() -> bool:
    return importlib.util.find_spec("photutils") is not None


PROGRAMS: Dict[str, Program] = {
    "maxcat": Program("`maxcat`", maxcat, lambda: True),
    "source-extractor": Program("Source Extractor", source_extractor, lambda: bool(shutil.which("source-extractor"))),
    "photutils": Program("photutils", photutils, _has_photutils),
    "noisechisel": Program("NoiseChisel's clumps", noisechisel, lambda: bool(shutil.which("astnoisechisel"))),
}


def there() -> Dict[str, Program]:
    """The programs that are installed."""
    return {name: program for name, program in PROGRAMS.items() if program.wants()}
