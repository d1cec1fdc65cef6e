"""Times `maxdetect detect` on what `maxcat` gives it of a dense field, beside Source Extractor's detection on the same
file, in one run; prints a table in Markdown.

usage: /usr/bin/python3 bench/dense.py MAXDETECT [--runs N] [--side SIDE]

MAXDETECT is the built program. The field is the star field of bench/speed.py, 4096 x 4096 pixels with 42,000 stars, in
32-bit whole numbers, a thirtieth of the noise each. Both programs take their own background off and find what stands
2.25 deviations of the noise above it on 5 pixels; both write a catalogue and a map. The least time of N runs counts (3
if left out); the rest is as in bench/run.py. Run it with nothing else running.
"""
import argparse
import multiprocessing
import os
import pathlib
import sys
import tempfile

import run

SIGMAS = 2.25
THRESHOLD = 68


def make(image, side):
    """Writes the field as the program is to see it."""
    import speed
    from astropy.io import fits

    sys.path.insert(0, os.fspath(run.TOP / "python"))
    import maxdetect
    from maxdetect import scaling

    floats = image.with_name("floats.fits")
    speed.field(floats, side)
    assert THRESHOLD == scaling.threshold(SIGMAS)
    maxdetect.save(scaling.prepared(fits.getdata(floats))[0], image)
    floats.unlink()


def counted(program, image):
    """How many sources the program finds."""
    sys.path.insert(0, os.fspath(run.TOP / "python"))
    import maxdetect

    return len(maxdetect.detect(maxdetect.load(image), THRESHOLD, min_area=5, mesh=64, connect=8, program=program)[0])


def main():
    parser = argparse.ArgumentParser(description=__doc__.splitlines()[0])
    parser.add_argument("maxdetect", type=pathlib.Path)
    parser.add_argument("--runs", type=int, default=3)
    parser.add_argument("--side", type=int, default=4096)
    given = parser.parse_args()
    program = given.maxdetect.resolve()
    words = {"detect": ["detect", "--threshold", str(THRESHOLD), "--min-area", "5", "--mesh", "64"]}
    # Arrays stay in another process, since a program that is started counts the memory of the one that starts it.
    with tempfile.TemporaryDirectory() as name, multiprocessing.get_context("spawn").Pool(1) as other:
        folder = pathlib.Path(name)
        image, theirs = folder / "image.fits", folder / "catalogue"
        other.apply(make, (image, given.side))
        runs = [*run.source_extractor(folder, image, "-DETECT_THRESH", str(SIGMAS), "-CATALOG_TYPE", "ASCII")]
        runs += run.maxdetect_runs(program, "maxdetect", words, [(16, 1), (16, 4)])
        print("| Image | Job | Program | Seconds | Share of the yardstick | Peak MB |")
        print("|---|---|---|---|---|---|")
        run.print_rows(f"dense, {given.side} x {given.side}", runs, image, given.runs)
        more = f", {len(theirs.read_bytes().splitlines())} by Source Extractor" if theirs.exists() else ""
        load = os.getloadavg()[0]
        print(f"{other.apply(counted, (program, image))} sources{more}; the load behind the runs was {load:.1f}.")


if __name__ == "__main__":
    main()
