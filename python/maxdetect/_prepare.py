"""An image of whole numbers, as the program reads it, from any image that astropy reads; examples/prepare.py calls it.

Who wants a catalogue takes `maxcat`; this is for those who call the program by themselves.
"""
import argparse
import shlex
import sys
import warnings
from typing import List, Optional

from astropy.io import fits
from astropy.utils.exceptions import AstropyWarning

from . import _images as images, scaling
from ._errors import Mistake
from ._limits import RANGES
from ._telling import told, with_image
from ._words import Parser, whole, within

DESCRIPTION = """Makes an image of whole numbers whose noise is 30, with the sky left in, and prints the command that
finds its sources. Pixels that aren't finite become BLANK. In the header MAXZERO is the number that was taken off, and
a number over MAXSCALE is in the image's units.
"""


def _parser() -> Parser:
    """What may be asked for."""
    parser = Parser(prog="prepare.py", description=DESCRIPTION, allow_abbrev=False)
    parser.add_argument("--hdu", help="the number or the name of the image's HDU (default: the first with an image)")
    parser.add_argument("--plane", type=whole(1), help="the plane of a cube, from 1")
    parser.add_argument("--smooth", action="store_true", help="smooth by 1 2 1 / 2 4 2 / 1 2 1")
    parser.add_argument(
        "--mesh", type=within(RANGES["mesh"]), default=64, help="side of the background's cells in pixels (default: 64)"
    )
    parser.add_argument(
        "--sigmas", type=within(RANGES["sigmas"]), help="the threshold (default: 2.25, and 1.375 with --smooth)"
    )
    parser.add_argument("--min-area", type=whole(1), default=5, help="the least area in the command (default: 5)")
    parser.add_argument("image", metavar="IMAGE")
    parser.add_argument("prepared", metavar="PREPARED")
    return parser


def _header(plane: images.Plane, zero: float, scale: float) -> fits.Header:
    """The image's cards, and how its numbers were made whole ones."""
    header = plane.header.copy()
    header.remove("BUNIT", ignore_missing=True)
    header["MAXZERO"] = (zero, "taken off before scaling")
    header["MAXSCALE"] = (scale, "numbers for one unit of the image")
    return header


def _command(given: argparse.Namespace) -> str:
    """The program's command that finds the sources of the prepared image."""
    threshold = scaling.threshold(given.sigmas if given.sigmas is not None else 1.375 if given.smooth else 2.25)
    mesh = f" --mesh {given.mesh}" if given.mesh else ""
    options = f"--threshold {threshold} --min-area {given.min_area} --connect 8{mesh}"
    return f"maxdetect detect {options} < {shlex.quote(given.prepared)} > sources.fits"


def run(words: Optional[List[str]] = None) -> None:
    """Does what the words say. Raises Mistake."""
    given = _parser().parse_args(words)
    if images.same(given.image, given.prepared):
        raise Mistake(f"{given.prepared} is read, so it can't be written")
    plane = images.opened(given.image, given.hdu, given.plane)
    try:
        numbers, zero, scale = scaling.prepared(plane.window(slice(None)), given.smooth, given.mesh)
    except ValueError as error:
        raise Mistake(f"{plane.label}: {error}") from None
    with_image(given.image, images.save, numbers, given.prepared, _header(plane, zero, scale))
    print(_command(given))


def main(words: Optional[List[str]] = None) -> int:
    """The command: its status is 0, or 2 where a mistake is told in one line."""
    warnings.simplefilter("ignore", AstropyWarning)
    return told("prepare", run, words)


if __name__ == "__main__":
    sys.exit(main())
