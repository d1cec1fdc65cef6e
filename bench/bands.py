"""How well `measure` finds the ratio of a star's brightness in two bands: the figures of the Guide.

usage: /usr/bin/python3 bench/bands.py MAXDETECT      (MAXDETECT is the built program)

It makes a field of 1024 x 1024 pixels with the stars of examples/star_field.py in two bands, measures the sources of the first in the second, and
compares, for each source with one star alone within six pixels, the ratio of both fluxes with that of the star. Two estimates of the flux in the
second band are compared: VSUM, and VSUM less VBACK on each pixel seen. It wants numpy and astropy.
"""
import importlib.util
import io
import pathlib
import random
import subprocess
import sys

import numpy
from astropy.table import Table

FIELD = pathlib.Path(__file__).resolve().parent.parent / "examples" / "star_field.py"
SIDE = 1024
FAINT_TO_BRIGHT = [(300, 1000), (1000, 3000), (3000, float("inf"))]


def true_stars():
    """Columns and rows of the stars, from 1, and how much brighter they are in the second band."""
    text = FIELD.read_text().rsplit("\nmain()", 1)[0]
    field = importlib.util.module_from_spec(importlib.util.spec_from_loader("field", None))
    exec(text, field.__dict__)
    rng = random.Random(1)
    field.sky(SIDE, SIDE, rng)
    stars = [field.random_star(SIDE, SIDE, rng) for _ in range(SIDE * SIDE // 400)]
    rng = random.Random("1 in red")
    return numpy.array([(column + 1, row + 1, rng.uniform(0.5, 2.0)) for column, row, _, _ in stars]).T


def main():
    bands = subprocess.run([sys.executable, FIELD, str(SIDE), str(SIDE), "1", "2"], capture_output=True, check=True).stdout
    words = ["measure", "--values", "1", "--threshold", "34", "--min-area", "5", "--mesh", "64", "--connect", "8"]
    measured = Table.read(io.BytesIO(subprocess.run([sys.argv[1], *words], input=bands, capture_output=True, check=True).stdout), hdu=2)
    columns, rows, brighter = true_stars()
    flux = numpy.array(measured["FLUX"] + measured["BASE"] * measured["AREA"], dtype=float)
    for low, high in FAINT_TO_BRIGHT:
        whole, less = [], []
        for source, first in zip(measured, flux):
            apart = numpy.hypot(columns - source["XCEN"] / 1000, rows - source["YCEN"] / 1000)
            star = apart.argmin()
            if low <= first < high and (apart < 6).sum() == 1 and apart[star] < 1.5 and source["SEEN"] == source["AREA"]:
                whole.append(source["VSUM"] / first / brighter[star])
                less.append((source["VSUM"] - source["VBACK"] / 1000 * source["SEEN"]) / source["FLUX"] / brighter[star])
        for name, ratios in (("VSUM", numpy.array(whole)), ("VSUM less VBACK", numpy.array(less))):
            middle = numpy.median(ratios)
            print(f"{low} to {high}: {len(ratios)} stars, {name}: median {middle:.2f}, scatter {1.48 * numpy.median(abs(ratios - middle)):.2f}")


main()
