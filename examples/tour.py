"""Goes the way of docs/TOUR.md: from a photograph of the Hubble deep field to a catalogue, with a picture of each
step.

usage: /usr/bin/python3 examples/tour.py FOLDER

The photograph is scikit-image's (Debian: python3-skimage); it is read from there. FOLDER gets hubble.fits, the
catalogue, the map, and the pictures image.png, background.png, residual.png, map.png and ellipses.png. The pictures
want matplotlib (Debian: python3-matplotlib).
"""
import os
import pathlib
import sys

import numpy
from astropy.io import fits
from astropy.table import Table

sys.path.insert(0, str(pathlib.Path(__file__).resolve().parent.parent / "python"))
from maxdetect import _cli as cli, photometry  # noqa: E402

# The part that is shown close by: first and last column, first and last row, from 1.
PART = (401, 700, 301, 560)
# Values that a scale by the logarithm names.
TICKS = (-20, 0, 20, 50, 100, 200, 400, 700)
COLOURS = ("red", "dodgerblue", "limegreen", "darkorange", "magenta")


def photograph():
    """The photograph as one image: the sum of its three colours, with the lowest row first."""
    from skimage.data import hubble_deep_field

    return hubble_deep_field()[::-1].sum(axis=2).astype("f4")


def halved(image):
    """Means over squares of two by two pixels."""
    height, width = (side // 2 for side in image.shape)
    return image[: 2 * height, : 2 * width].reshape(height, 2, width, 2).mean((1, 3))


def part(image):
    """The pixels of the part."""
    return image[PART[2] - 1 : PART[3], PART[0] - 1 : PART[1]]


def painted(path, image, extent, norm, decorate=None, cmap="gray_r", bar=True):
    """Draws an image with its columns and rows counted from 1, and a scale of its values."""
    from matplotlib.backends.backend_agg import FigureCanvasAgg
    from matplotlib.figure import Figure
    from PIL import Image

    figure = Figure(figsize=(6.6, 5.4), layout="constrained")
    axes = figure.subplots()
    drawn = axes.imshow(image, cmap=cmap, norm=norm, origin="lower", interpolation="nearest", extent=extent)
    if bar:
        ticks = [it for it in TICKS if norm.vmin <= it <= norm.vmax] if norm.vmax and norm.vmax > 100 else None
        figure.colorbar(drawn, ax=axes, pad=0.02, ticks=ticks, format="%g")
    if decorate:
        decorate(axes)
    axes.set_xlim(extent[0], extent[1])
    axes.set_ylim(extent[2], extent[3])
    canvas = FigureCanvasAgg(figure)
    canvas.draw()
    # A palette keeps the file small.
    Image.fromarray(numpy.asarray(canvas.buffer_rgba())[:, :, :3]).quantize(256).save(path, optimize=True)


def ellipses(table):
    """What draws the ellipses of a catalogue into a picture."""
    from matplotlib.collections import EllipseCollection

    def decorate(axes):
        look = {"units": "xy", "facecolors": "none", "edgecolors": "red", "linewidths": 0.9}
        places = numpy.column_stack([table["X"], table["Y"]])
        sides = 2 * numpy.asarray(table["A"]), 2 * numpy.asarray(table["B"])
        drawn = EllipseCollection(
            *sides, numpy.asarray(table["THETA"]), offsets=places, transOffset=axes.transData, **look
        )
        axes.add_collection(drawn)

    return decorate


def pictures(folder, image, background, segments, table):
    """The pictures of the steps."""
    from matplotlib.colors import AsinhNorm, ListedColormap, Normalize

    whole = (0.5, image.shape[1] + 0.5, 0.5, image.shape[0] + 0.5)
    close = (PART[0] - 0.5, PART[1] + 0.5, PART[2] - 0.5, PART[3] + 0.5)
    sky = float(numpy.median(background))
    painted(folder / "image.png", halved(image), whole, AsinhNorm(40, sky - 20, 765))
    painted(folder / "background.png", halved(background), whole, Normalize())
    painted(folder / "residual.png", part(image - background), close, AsinhNorm(40, -20, 765 - sky))
    colours = numpy.ma.masked_equal(numpy.where(part(segments) > 0, 1 + part(segments) % len(COLOURS), 0), 0)
    painted(folder / "map.png", colours, close, Normalize(1, len(COLOURS)), None, ListedColormap(COLOURS), False)
    painted(folder / "ellipses.png", part(image - background), close, AsinhNorm(40, -20, 765 - sky), ellipses(table))


def main():
    folder = pathlib.Path(sys.argv[1])
    image = photograph()
    fits.PrimaryHDU(image).writeto(folder / "hubble.fits", overwrite=True)
    names = {name: os.fspath(folder / f"hubble.{name}.fits") for name in ("cat", "map")}
    words = [os.fspath(folder / "hubble.fits"), "-o", names["cat"], "--map", names["map"]]
    if cli.main(words) != 0:
        sys.exit(2)
    segments = fits.getdata(names["map"])
    background, noise = photometry.sky(image, segments)
    print(f"noise {noise:.1f}, background {background.min():.1f} to {background.max():.1f}")
    pictures(folder, image, background, segments, Table.read(names["cat"]))


if __name__ == "__main__":
    main()
