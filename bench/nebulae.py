"""The time of `maxdetect.catalogue` where sources reach over several tiles, by the tiles' size.

usage: /usr/bin/python3 bench/nebulae.py MAXWIDE      (MAXWIDE is the built program)

The field has 2600 x 3100 floating-point numbers: 9,000 stars, two nebulae of hundreds and thousands of pixels, and rows
and columns without a value. Three threads take the tiles. All sizes have to give the same rows and the same map.
"""
import concurrent.futures
import os
import pathlib
import sys
import time

import numpy
from scipy import ndimage

sys.path.insert(0, str(pathlib.Path(__file__).resolve().parent.parent / "python"))
import maxdetect  # noqa: E402

HEIGHT, WIDTH = 2600, 3100
SIZES = (3840, 2048, 1024, 700)


def field():
    """Stars, nebulae and holes on noise of 30."""
    rng = numpy.random.default_rng(5)
    light = numpy.zeros((HEIGHT, WIDTH))
    light[rng.integers(0, HEIGHT, 9000), rng.integers(0, WIDTH, 9000)] = 10 ** rng.uniform(2.5, 5.5, 9000)
    image = rng.normal(900, 30, light.shape) + ndimage.gaussian_filter(light, 1.5) * 8
    rows, columns = numpy.indices(image.shape)
    for height, x, y, across, along in ((3000, 2950, 1900, 350, 350), (2000, 600, 300, 900, 40)):
        image += height * numpy.exp(-(((columns - x) / across) ** 2 + ((rows - y) / along) ** 2) / 2)
    image[:40] = image[1000:1010] = numpy.nan
    image[:, 3060:][rng.random((HEIGHT, 40)) < 0.5] = numpy.nan
    return image.astype("f4")


def main(program):
    os.environ["MAXDETECT"] = os.environ["MAXWIDE"] = program
    image, first = field(), None
    print("| Tiles of | Seconds | Sources |")
    print("|---|---|---|")
    with concurrent.futures.ThreadPoolExecutor(3) as pool:
        for size in SIZES:
            start = time.perf_counter()
            table, segments = maxdetect.catalogue(image, tile=size, executor=pool)
            print(f"| {size} | {time.perf_counter() - start:.1f} | {len(table)} |", flush=True)
            found = [numpy.asarray(table[name]) for name in maxdetect.DESCRIPTIONS if name in table.colnames] + [
                segments
            ]
            if first is not None and not all(numpy.array_equal(*each) for each in zip(first, found)):
                sys.exit("tiles of this size give other rows, or another map")
            first = found


if __name__ == "__main__":
    if len(sys.argv) != 2:
        sys.exit(__doc__)
    main(os.path.abspath(sys.argv[1]))
