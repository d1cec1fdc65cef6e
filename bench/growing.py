"""Times `maxdetect detect` on growing images, and on one of which ever more has the threshold, in tables of Markdown.

usage: /usr/bin/python3 bench/growing.py MAXDETECT [--runs N]

MAXDETECT is the built program. The images are the dense field of bench/dense.py with 1,024, 2,048 and 4,096 pixels a
side, and its largest one with thresholds that a thousandth, a hundredth, a tenth, half and all of its pixels have, by
their numbers less the median. The least time of N runs counts (3 if left out). Run it with nothing else running.
"""
import argparse
import multiprocessing
import pathlib
import tempfile

import dense
import run

SIDES = (1024, 2048, 4096)
SHARES = (0.1, 1, 10, 50, 100)
CREWS = {"one strip": [], "16 strips, 4 workers": ["--strips", "16", "--workers", "4"]}


def thresholds(image):
    """For each of SHARES the threshold that so many hundredths of the pixels have."""
    import numpy
    from astropy.io import fits

    numbers = fits.getdata(image).astype("f8")
    blank = fits.getheader(image).get("BLANK")
    numbers = numbers[~numpy.isnan(numbers) & (numbers != blank)]
    numbers -= numpy.median(numbers)
    return [int(numpy.floor(numpy.percentile(numbers, 100 - share))) for share in SHARES]


def print_row(title, program, image, threshold, runs):
    """The seconds and megabytes of one strip, and of several with workers."""
    words = ["detect", "--threshold", str(threshold), "--min-area", "5", "--mesh", "64", "--connect", "8"]
    cells = []
    for crew in CREWS.values():
        seconds, peak, _ = run.least(["env", run.LARGE_PAGES, program, *words, *crew], image, runs)
        cells += [f"{seconds:.2f}", f"{peak:.0f}"]
    print(f"| {title} | {' | '.join(cells)} |", flush=True)


def print_head(first):
    print(f"| {first} | " + " | ".join(f"{name}: seconds | MB" for name in CREWS) + " |")
    print("|---" * (1 + 2 * len(CREWS)) + "|")


def main():
    parser = argparse.ArgumentParser(description=__doc__.splitlines()[0])
    parser.add_argument("maxdetect", type=pathlib.Path)
    parser.add_argument("--runs", type=int, default=3)
    given = parser.parse_args()
    program = given.maxdetect.resolve()
    # Arrays stay in another process, since a program that is started counts the memory of the one that starts it.
    with tempfile.TemporaryDirectory() as name, multiprocessing.get_context("spawn").Pool(1) as other:
        images = {side: pathlib.Path(name) / f"{side}.fits" for side in SIDES}
        for side, image in images.items():
            other.apply(dense.make, (image, side))
        print_head("Side")
        for side, image in images.items():
            print_row(side, program, image, dense.THRESHOLD, given.runs)
        print()
        print_head("Percent of the pixels")
        for share, threshold in zip(SHARES, other.apply(thresholds, (images[SIDES[-1]],))):
            print_row(f"{share} (threshold {threshold})", program, images[SIDES[-1]], threshold, given.runs)


if __name__ == "__main__":
    main()
