"""Random comparisons of sources found by parts of an image with those of the whole.

usage: /usr/bin/python3 tests/compare_tiles.py MAXDETECT MAXWIDE [--cases N] [--seed N] [--from N]

Case k of a seed is always the same: two images of at most 48 x 48 pixels with their settings. Columns, their types, and
the map have to be those that `maxdetect.detect` finds in the whole: of the first image by `maxdetect.detect_tiles`,
whole and by tiles in some executor; of the second by the windows in which `maxcat` looks at a field. There parts are
joined again too, in windows as in the whole. The first case that differs is told, and the status is then 1.
"""
import argparse
import concurrent.futures
import os
import pathlib
import sys
import time

import numpy
from scipy import ndimage

HERE = pathlib.Path(__file__).resolve().parent
sys.path.insert(0, str(HERE.parent / "python"))
import maxdetect  # noqa: E402
from maxdetect import _holding as holding, _joining as joining, _pieces as pieces, _sights as sights  # noqa: E402
from maxdetect import _tiles as tiles, _windows as windows  # noqa: E402
from maxdetect._rows import Rows  # noqa: E402

SIDE, TOLD = 48, 1000


class InTurn(concurrent.futures.Executor):
    """Does what it is given at once."""

    def submit(self, work, *words, **options):
        future = concurrent.futures.Future()
        future.set_result(work(*words, **options))
        return future


def pixels(rng, shape):
    """Noise, plateaus, hills, or a slope with steps."""
    kind = rng.integers(4)
    if kind == 0:
        return rng.integers(0, rng.choice([2, 3, 10, 100]), shape)
    if kind == 1:
        high, wide = rng.integers(1, 7, 2)
        blocks = rng.integers(0, 8, (shape[0] // high + 1, shape[1] // wide + 1))
        return numpy.kron(blocks, numpy.ones((high, wide), dtype=int))[: shape[0], : shape[1]]
    hills = ndimage.gaussian_filter(rng.normal(0, 1, shape), rng.uniform(0.5, 4))
    hills = numpy.rint(hills / max(hills.std(), 1e-3) * rng.choice([3, 30, 1000])).astype(int)
    return hills if kind == 2 else hills + numpy.indices(shape).sum(axis=0) // int(rng.integers(1, 9))


def undefined(rng, shape):
    """Which pixels have no value: none, some, or whole areas."""
    mask = rng.random(shape) < rng.choice([0, 0, 0.02, 0.3, 0.9])
    for _ in range(rng.choice([0, 0, 1, 3])):
        top, left = rng.integers(0, shape[0]), rng.integers(0, shape[1])
        high, wide = rng.integers(1, 25, 2)
        mask[top : top + high, left : left + wide] = True
    return mask


def drawn(rng, shape, mesh):
    """An image, a threshold and settings for it."""
    image = numpy.ma.MaskedArray(pixels(rng, shape), mask=undefined(rng, shape))
    spread = image.std() if image.count() else 1
    middle = 0 if mesh else (image.mean() if image.count() else 0)
    threshold = int(middle + spread * rng.choice([-1, 0, 0.3, 1, 2]))
    options = dict(mesh=mesh, flat=bool(rng.integers(2)), connect=int(rng.choice([4, 8])))
    options.update(min_area=int(rng.choice([1, 1, 3, 5])), contrast=int(rng.choice([0, 5, 100, 300, 1000])))
    options.update(min_flux=int(rng.choice([0, 0, 20])))
    return image, threshold, options


def sides(rng, tile, margin):
    """Those of an image; most are a few windows large."""
    most = SIDE if rng.random() < 0.02 else min(SIDE, max(8, 3 * tile + 2 * margin))
    return tuple(int(side) for side in rng.integers(1, most, 2, endpoint=True))


def difference(first, second, types=True):
    """In what two answers differ, or None."""
    (table, segments), (other, its_map) = first, second
    if len(table) != len(other):
        return f"{len(table)} and {len(other)} rows"
    for name in table.colnames:
        if not numpy.array_equal(table[name], other[name]) or types and table[name].dtype != other[name].dtype:
            return name
    return None if numpy.array_equal(segments, its_map) else "the map"


# ---- the program's tiles


def case(seed, number):
    """The image, the threshold, the tile's side, a window's margin without a mesh, what may be made again, which of
    three executors is taken, and the settings.
    """
    rng = numpy.random.default_rng([seed, number])
    mesh = int(rng.choice([0, 0, 1, 1, 2, 2, 3, 4, 5, 7]))
    tile, margin = int(rng.choice([1, 2, 3, 3, 5, 5, 8, 8, 16, 16])), int(rng.choice([1, 2, 8]))
    image, threshold, options = drawn(rng, sides(rng, max(tile, mesh), 2 * mesh), mesh)
    return image, threshold, tile, margin, int(rng.choice([1, 2, 100])), int(rng.integers(3)), options


def compared(seed, number, executors):
    """In what tiles of a case differ from the whole, or None."""
    image, threshold, tile, tiles.MARGIN, windows.MOST_AGAIN, executor, options = case(seed, number)
    whole = maxdetect.detect(image, threshold, **options)
    for pool in (None, executors[executor % len(executors)]):
        differs = difference(whole, maxdetect.detect_tiles(image, threshold, tile, pool, **options))
        if differs:
            return differs + (" without tiles" if pool is None else "")
    return None


# ---- maxcat's windows


def windows_case(seed, number):
    """The image, the threshold, how it is looked at, how far what is made of a component reaches, what may be made
    again, the deviations with which parts stay, and the settings.
    """
    rng = numpy.random.default_rng([seed, number, 1])
    tile, margin = int(rng.choice([3, 5, 8, 16])), int(rng.choice([1, 2, 8]))
    image, threshold, options = drawn(rng, sides(rng, tile, margin), 0)
    plan = windows.Plan(windows.Box(0, image.shape[0], 0, image.shape[1]), tile, margin)
    reach, again = int(rng.choice([1, 1, 2, 5])), int(rng.choice([1, 2, 100]))
    return image, threshold, plan, reach, again, float(rng.choice([0, 1, 5])), {**options, "connect": 8}


def significance(area, light, level):
    """Deviations of a noise of 3 that pixels don't share."""
    return light / 3 / area**0.5 if area else 0.0


def by_windows(image, threshold, plan, reach, least, options):
    """The rows and the map."""
    numbers, segments = image.filled(sights.kernel.LEAST), numpy.zeros(image.shape, dtype="i4")
    gathered = joining.Gathered(segments, lambda count: None)

    def made(cut):
        for core, window in cut:
            seen = sights.Numbers(window.shape)
            seen.array[...] = numbers[window.rows, window.columns]
            sight = seen.seen(window, plan.whole, threshold, **options)
            parts = pieces.sources(seen.array, sight.rows, sight.segments, threshold, significance, least)
            yield holding.piece(parts, sight.open, core, window, plan.whole, reach)

    if plan.looked_at(made, gathered.take):
        gathered.drop()
        gathered.take(*made([(plan.whole, plan.whole)]))
    rows, _ = gathered.rows()
    joining.hide(segments)
    return rows, segments


def compared_windows(seed, number):
    """In what windows of a case differ from the whole, or None."""
    image, threshold, plan, reach, windows.MOST_AGAIN, least, options = windows_case(seed, number)
    if not least:
        table, segments = maxdetect.detect(image, threshold, **options)
        whole = Rows.of(table), segments
    else:
        alone = windows.Plan(plan.whole, SIDE, 1)
        whole = by_windows(image, threshold, alone, reach, least, options)
    return difference(whole, by_windows(image, threshold, plan, reach, least, options), types=False)


def main():
    parser = argparse.ArgumentParser(usage=__doc__.split("\n")[2][7:])
    parser.add_argument("maxdetect")
    parser.add_argument("maxwide")
    for name, number in (("--cases", 10000), ("--seed", 1), ("--from", 0)):
        parser.add_argument(name, type=int, default=number)
    given = parser.parse_args()
    first, start = getattr(given, "from"), time.perf_counter()
    os.environ.update(MAXDETECT=os.path.abspath(given.maxdetect), MAXWIDE=os.path.abspath(given.maxwide))
    with concurrent.futures.ProcessPoolExecutor(2) as processes, concurrent.futures.ThreadPoolExecutor(2) as threads:
        for number in range(first, first + given.cases):
            differs = compared(given.seed, number, (InTurn(), threads, processes))
            windows_differ = compared_windows(given.seed, number)
            if differs or windows_differ:
                sys.exit(f"case {number} of seed {given.seed} differs: {differs or 'windows: ' + windows_differ}")
            if (number + 1 - first) % TOLD == 0:
                print(f"{number + 1 - first} cases, {time.perf_counter() - start:.0f} s", flush=True)
    print(
        f"{given.cases} cases of seed {given.seed} from {first} on: no difference, {time.perf_counter() - start:.0f} s"
    )


if __name__ == "__main__":
    main()
