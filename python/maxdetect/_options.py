"""The words of `maxcat`. They are read before numpy and astropy are loaded, so that `--help` is there at once."""
import argparse
import os
from typing import Tuple

from . import __version__, _asked as asked
from ._limits import KINDS, RANGES
from ._words import Parser, called, finite, whole, within

__all__ = ["parser"]

DESCRIPTION = """Finds the sources of an image and writes a catalogue: positions, fluxes with errors, ellipses, flags,
and sky coordinates where the header has them.
"""
EPILOG = """HDUs are counted from 0, planes and pixels from 1. The sources are found by the program maxdetect, whose
results are proved; the sky, the scaling and the photometry around it are not. @FILE stands for the words in a file.
Errors are one line on standard error, with status 2; nothing is written then. Where one of several images is at fault,
the others are done.
"""


@called("part")
def crop(text: str) -> Tuple[int, ...]:
    """The part of an image from its first column and row to its last, as four whole numbers from 1."""
    sides = tuple(int(side) for side in text.split(","))
    if len(sides) != 4 or sides[0] > sides[1] or sides[2] > sides[3]:
        raise argparse.ArgumentTypeError(f"{text} isn't XMIN,XMAX,YMIN,YMAX")
    return sides


def _add_written(out) -> None:
    """The options that say what is written."""
    out.add_argument(
        "-o",
        "--output",
        metavar="CATALOGUE",
        help="FITS, CSV, ECSV, VOTable or FITS_LDAC by the name's end (default: IMAGE's name with .cat.fits)",
    )
    asked.add(out)
    out.add_argument("--map", help="the segmentation map, as FITS: for each pixel the number of its source")
    out.add_argument("--regions", metavar="REG", help="ellipses for DS9")
    out.add_argument("--plot", metavar="PNG", help="a picture of the image and its sources")
    out.add_argument(
        "--report",
        metavar="HTML",
        help="a page for a browser: the image with its sources, their table, histograms, and what was assumed",
    )
    out.add_argument("--crop", type=crop, metavar="XMIN,XMAX,YMIN,YMAX", help="the part for --plot, in pixels from 1")
    out.add_argument("--survey", metavar="FILE", help="the file of a survey, to which maxsurvey adds what is found")
    out.add_argument("--field", metavar="NAME", help="the field's name there (default: the image's name)")
    out.add_argument(
        "--survey-unit",
        type=finite(above=0),
        metavar="U",
        help="a whole number of flux there, in the image's unit (default: 1)",
    )
    out.add_argument("--zeropoint", type=finite(), metavar="Z", help="the magnitude of a flux of 1: adds magnitudes")


def _add_read(what) -> None:
    """The options that say what is read."""
    what.add_argument(
        "--hdu",
        metavar="all|N|NAME",
        help="the HDU with the image, or all that have one (default: the first that has one)",
    )
    what.add_argument("--plane", type=whole(1, 2**31), metavar="N", help="the plane of a cube, from 1")
    what.add_argument("--weight", metavar="FILE[:HDU]", help="a map of the noise, or of weights")
    what.add_argument(
        "--weight-type",
        choices=KINDS,
        help="what it has; weights are one over the variance, up to a factor (default: weight)",
    )
    what.add_argument("--mask", metavar="FILE[:HDU]", help="pixels that aren't 0 there are left out")
    what.add_argument(
        "--measure", metavar="FILE[:HDU]", help="another image of the same pixels, in which the sources are measured"
    )
    asked.add_read(what)
    what.add_argument(
        "--gain",
        type=within(RANGES["gain"]),
        help="electrons for a unit of the image that is measured, for the errors (default: its header's GAIN)",
    )
    what.add_argument(
        "--saturation",
        type=within(RANGES["saturation"]),
        help="pixels from this value on are flagged (default: the header's SATURATE)",
    )


def _add_smoothing(how) -> None:
    """The threshold, and the width of what is looked for."""
    how.add_argument(
        "--sigmas",
        type=within(RANGES["sigmas"]),
        metavar="S",
        help="the threshold, in deviations of the noise of the smoothed image (default: 4.4; 2.25 without smoothing)",
    )
    how.add_argument(
        "--fwhm",
        type=within(RANGES["fwhm"]),
        metavar="W",
        help="the width of point sources in pixels, by which the image is smoothed (default: as the image shows it)",
    )
    how.add_argument("--no-smooth", action="store_const", const=0.0, dest="fwhm", help="don't smooth the image")


def _add_parts(how) -> None:
    """What counts as a source of its own."""
    how.add_argument(
        "--split-sigmas",
        type=within(RANGES["split_sigmas"]),
        default=1.0,
        metavar="K",
        help="how many deviations of the noise a part of a component stands above where it meets another one, if it is "
        "a source of its own; on a wide source more (default: 1)",
    )
    how.add_argument(
        "--contrast",
        type=within(RANGES["contrast"]),
        metavar="C",
        help="split by the program's contrast instead, in thousandths of the whole component's flux",
    )
    how.add_argument(
        "--no-clean",
        action="store_false",
        dest="clean",
        help="keep the peaks of noise on faint light, as on a galaxy's halo",
    )
    how.add_argument(
        "--cosmic-rays",
        action="store_true",
        help="leave out the pixels that cosmic rays have hit, by astroscrappy; for stars at least 2 pixels wide",
    )
    how.add_argument(
        "--wide",
        action="store_true",
        help="look for wide faint sources besides, in the means of blocks of 8 by 8 pixels",
    )


def _add_cells(how) -> None:
    """The sky, the noise and the area, and how many work at once."""
    how.add_argument(
        "--mesh",
        type=within(RANGES["mesh"]),
        default=64,
        metavar="SIDE",
        help="side of the background's cells in pixels, 8 to 512; 0: one level (default: 64)",
    )
    how.add_argument(
        "--min-area",
        type=within(RANGES["min_area"]),
        metavar="N",
        help="the least area of a source in pixels (default: by the width of the smoothing, 3 for 3.4 pixels; 5 "
        "without smoothing)",
    )
    how.add_argument(
        "--rms", choices=("even", "local"), default="even", help="local: the noise is taken by cells (default: even)"
    )
    how.add_argument(
        "--workers",
        type=within(RANGES["workers"]),
        default=min(4, os.cpu_count() or 1),
        metavar="N",
        help="images and tiles at work at once; 1 takes the least memory (default: as many as processors, at most 4)",
    )


def _add_how(how) -> None:
    """The options that say how sources are found."""
    _add_smoothing(how)
    _add_parts(how)
    _add_cells(how)
    asked.add_run(how)


def parser() -> argparse.ArgumentParser:
    """The command's options."""
    made = Parser(prog="maxcat", description=DESCRIPTION, epilog=EPILOG, allow_abbrev=False, fromfile_prefix_chars="@")
    made.add_argument("--version", action="version", version=f"maxcat {__version__}")
    made.add_argument("images", metavar="IMAGE", nargs="+", help="a FITS image of any kind that astropy reads")
    _add_written(made.add_argument_group("what is written"))
    _add_read(made.add_argument_group("what is read"))
    _add_how(made.add_argument_group("how sources are found"))
    return made
