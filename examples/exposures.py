"""Makes what a chain of astrometry, point-spread functions and stacking works on: three dithered exposures of two CCDs
each, and a catalogue of the same sky as a reference for SCAMP.

usage: /usr/bin/python3 examples/exposures.py FOLDER [SIDE [SEED]]      (SIDE pixels a CCD, by default 512)

FOLDER gets exposure1.fits to exposure3.fits, each a primary header with EXPTIME, FILTER and the like and the extensions
CCD1 and CCD2 with GAIN, SATURATE and a WCS that is a little off; reference.cat, FITS_LDAC with the stars' places and
magnitudes; and truth.fits, a table with those of all stars. The same numbers always give the same files.
"""
import os
import pathlib
import sys

import numpy
from astropy.io import fits
from astropy.table import Table
from astropy.wcs import WCS

sys.path.insert(0, str(pathlib.Path(__file__).resolve().parent.parent / "python"))
from maxdetect import _ldac as ldac  # noqa: E402

SCALE, CENTRE, GAP = 0.3, (150.0, 2.0), 20
# The sky and the read-out in electrons, the electrons for a unit, from where on pixels are saturated, the zero point.
SKY, READ, GAIN, SATURATE, ZEROPOINT = 900.0, 5.0, 2.0, 30000.0, 28.0
DITHERS = ((0.0, 0.0), (17.3, -11.6), (-13.9, 21.2))


def wcs_of(ccd, exposure, side, off=(0.0, 0.0, 0.0)):
    """The WCS of a CCD in an exposure, off by so many pixels along x and y and so many degrees of turn."""
    wcs = WCS(naxis=2)
    wcs.wcs.ctype, wcs.wcs.crval = ["RA---TAN", "DEC--TAN"], list(CENTRE)
    turn = numpy.radians(off[2])
    turned = numpy.array([[numpy.cos(turn), -numpy.sin(turn)], [numpy.sin(turn), numpy.cos(turn)]])
    wcs.wcs.cd = SCALE / 3600 * numpy.diag([-1, 1]) @ turned
    middle = side + GAP / 2 - ccd * (side + GAP)
    wcs.wcs.crpix = [middle + DITHERS[exposure][0] + off[0], side / 2 + DITHERS[exposure][1] + off[1]]
    wcs.wcs.set()
    return wcs


def stars(side, rng):
    """Right ascensions, declinations and magnitudes of stars over both CCDs and around them."""
    wide, high = (2 * side + GAP + 100) * SCALE / 3600, (side + 100) * SCALE / 3600
    count = int(900 * wide * high * (3600 / SCALE / 512) ** 2 / 2)
    right = CENTRE[0] + rng.uniform(-wide / 2, wide / 2, count) / numpy.cos(numpy.radians(CENTRE[1]))
    return right, CENTRE[1] + rng.uniform(-high / 2, high / 2, count), 15.5 + 7.5 * rng.power(2.5, count)


def add_star(image, x, y, electrons, width):
    """A star with a Moffat profile of beta 3; x and y count from 0."""
    reach = int(min(60, 12 + electrons**0.33))
    rows, columns = (
        numpy.arange(max(0, int(at) - reach), min(side, int(at) + reach + 1)) for at, side in zip((y, x), image.shape)
    )
    if not len(rows) or not len(columns):
        return
    core = width / 2 / (2 ** (1 / 3) - 1) ** 0.5
    far = ((rows - y) ** 2)[:, None] + (columns - x) ** 2
    image[rows[0] : rows[-1] + 1, columns[0] : columns[-1] + 1] += (
        electrons * 2 / (numpy.pi * core**2) * (1 + far / core**2) ** -3
    )


def image_of(sky, exposure, ccd, side, off, rng):
    """The HDU of a CCD in an exposure, whose WCS is off by so much."""
    right, declination, magnitudes = sky
    expected = numpy.full((side, side), SKY)
    places = wcs_of(ccd, exposure, side).all_world2pix(right, declination, 0)
    for x, y, magnitude in zip(*places, magnitudes):
        add_star(expected, x, y, GAIN * 10 ** (0.4 * (ZEROPOINT - magnitude)), (3.0, 3.3, 2.8)[exposure])
    electrons = rng.poisson(expected) + rng.normal(0, READ, expected.shape)
    header = wcs_of(ccd, exposure, side, off).to_header()
    header.update({"GAIN": GAIN, "SATURATE": SATURATE, "BUNIT": "adu"})
    values = numpy.minimum(electrons / GAIN, SATURATE).astype("f4")
    return fits.ImageHDU(values, header, name=f"CCD{ccd + 1}")


def reference(sky, rng, path):
    """The brighter stars as SCAMP reads a catalogue of reference: FITS_LDAC with places that are known to a thousandth
    of a second of arc.
    """
    right, declination, magnitudes = (it[sky[2] < 21] for it in sky)
    error = 0.001 / 3600
    right, declination = (it + rng.normal(0, error, len(it)) for it in (right, declination))
    columns = {
        "X_WORLD": ("D", "deg", right),
        "Y_WORLD": ("D", "deg", declination),
        "ERRA_WORLD": ("E", "deg", numpy.full(len(right), error)),
        "ERRB_WORLD": ("E", "deg", numpy.full(len(right), error)),
        "ERRTHETA_WORLD": ("E", "deg", numpy.zeros(len(right))),
        "MAG": ("E", "mag", magnitudes),
        "MAGERR": ("E", "mag", numpy.full(len(right), 0.01)),
        "OBSDATE": ("D", "yr", numpy.full(len(right), 2020.0)),
    }
    table = [fits.Column(name, form, unit, array=values) for name, (form, unit, values) in columns.items()]
    header = fits.Header([("SIMPLE", True), ("BITPIX", 8), ("NAXIS", 0)])
    ldac.save([(header.tostring(padding=False), fits.BinTableHDU.from_columns(table, name="LDAC_OBJECTS"))], path)


def main():
    folder, side = sys.argv[1], int(sys.argv[2]) if len(sys.argv) > 2 else 512
    rng = numpy.random.default_rng(int(sys.argv[3]) if len(sys.argv) > 3 else 1)
    os.makedirs(folder, exist_ok=True)
    sky = stars(side, rng)
    Table(sky, names=["RA", "DEC", "MAG"]).write(os.path.join(folder, "truth.fits"), overwrite=True)
    reference(sky, rng, os.path.join(folder, "reference.cat"))
    for exposure in range(len(DITHERS)):
        date = f"2020-01-01T0{exposure}:00:00"
        cards = {
            "EXPTIME": 100.0,
            "FILTER": "r",
            "OBJECT": "chain",
            "DATE-OBS": date,
            "AIRMASS": 1.1,
            "TELESCOP": "none",
        }
        primary = fits.PrimaryHDU(header=fits.Header(cards))
        off = (*rng.uniform(-2, 2, 2), rng.uniform(-0.02, 0.02))
        ccds = [image_of(sky, exposure, ccd, side, off, rng) for ccd in range(2)]
        fits.HDUList([primary, *ccds]).writeto(os.path.join(folder, f"exposure{exposure + 1}.fits"), overwrite=True)


main()
