"""Times `maxwide detect` on a large image, and beside it `maxwide tile` over its windows with `maxwide join`, in one
run; the bytes have to be the same. Prints a table in Markdown.

usage: /usr/bin/python3 bench/windows.py MAXWIDE [--width W] [--height H] [--cuts N]

MAXWIDE is the built program. The image is a star field of 4096 x 4096 pixels of 16 bits, repeated; it is cut into N
columns and N rows of cores (4 if left out), each in a window that reaches 512 pixels further. Tiles are joined in
another order than they are made in. Times are wall clock, with reading and writing, memory is the peak of the process;
`tile` takes the sum of the windows' times and the greatest of their peaks. Run it with nothing else running.
"""
import argparse
import os
import pathlib
import random
import subprocess
import tempfile
import time

import numpy
import run

STAR_FIELD, MARGIN, MESH = 4096, 512, 64
DETECT = ["detect", "--threshold", "100", "--min-area", "5", "--connect", "8", "--mesh", str(MESH)]


def header(width, height):
    cards = [("SIMPLE", "T"), ("BITPIX", 16), ("NAXIS", 2), ("NAXIS1", width), ("NAXIS2", height)]
    return (
        ("".join(f"{keyword:<8}= {value:>20}".ljust(80) for keyword, value in cards) + "END".ljust(80))
        .ljust(2880)
        .encode()
    )


def write(path, pixels):
    """Writes some rows and columns of the image as a file."""
    height, width = pixels.shape
    with open(path, "wb") as file:
        file.write(header(width, height))
        for top in range(0, height, 256):
            file.write(pixels[top : top + 256].tobytes())
        file.write(bytes(-(2 * width * height) % 2880))


def field(folder):
    """The star field's pixels."""
    path = folder / "stars.fits"
    run.star_field(path, STAR_FIELD)
    return numpy.fromfile(path, ">i2", STAR_FIELD**2, offset=2880).reshape(STAR_FIELD, STAR_FIELD)


class Repeated:
    """The star field, repeated to so many columns and rows, of which a part is made when it is asked for."""

    def __init__(self, pixels, width, height):
        self.pixels, self.shape = pixels, (height, width)

    def __getitem__(self, places):
        rows, columns = places if isinstance(places, tuple) else (places, slice(0, self.shape[1]))
        rows, columns = (range(*place.indices(side)) for place, side in zip((rows, columns), self.shape))
        return self.pixels[numpy.ix_(numpy.array(rows) % STAR_FIELD, numpy.array(columns) % STAR_FIELD)]


def stretches(side, cuts):
    """The cores along a side, each with its window, which begins on the mesh."""
    ends = [side * cut // cuts for cut in range(cuts + 1)]
    for begin, end in zip(ends, ends[1:]):
        yield begin, end, max(begin - MARGIN, 0) // MESH * MESH, min(end + MARGIN, side)


def made(command, source, path):
    """Seconds and peak megabytes of a run that writes a file."""
    with open(source, "rb") as image, open(path, "wb") as output:
        start = time.perf_counter()
        process = subprocess.Popen(command, stdin=image, stdout=output)
        _, status, usage = os.wait4(process.pid, 0)
    if status != 0:
        raise SystemExit(f"{command} ended with {status}")
    return time.perf_counter() - start, usage.ru_maxrss / 1024


def tiles(program, image, folder, cuts):
    """The files of all tiles, the time of all, and the greatest peak."""
    height, width = image.shape
    files, total, peak = [], 0.0, 0.0
    for top, bottom, above, below in stretches(height, cuts):
        for left, right, before, behind in stretches(width, cuts):
            window = folder / "window.fits"
            write(window, image[above:below, before:behind])
            place = ["--whole", width, height, "--window", before, above, behind - before, below - above]
            place += ["--core", left, top, right - left, bottom - top]
            command = [program, "tile", *map(str, place), *DETECT]
            files.append(folder / f"tile{len(files)}.fits")
            seconds, megabytes = made(command, window, files[-1])
            total, peak = total + seconds, max(peak, megabytes)
    return files, total, peak


def main():
    parser = argparse.ArgumentParser(description=__doc__.splitlines()[0])
    parser.add_argument("maxwide", type=pathlib.Path)
    parser.add_argument("--width", type=int, default=10_000)
    parser.add_argument("--height", type=int, default=10_000)
    parser.add_argument("--cuts", type=int, default=4)
    given = parser.parse_args()
    program = given.maxwide.resolve()
    with tempfile.TemporaryDirectory() as name:
        folder = pathlib.Path(name)
        image = Repeated(field(folder), given.width, given.height)
        whole, joined = folder / "whole.fits", folder / "tiles.fits"
        write(whole, image)
        rows = [("detect", *run.timed([program, *DETECT], whole))]
        whole.unlink()
        files, seconds, peak = tiles(program, image, folder, given.cuts)
        rows.append((f"tile, {len(files)} windows", seconds, peak, ""))
        random.Random(1).shuffle(files)
        with open(joined, "wb") as output:
            for file in files:
                output.write(file.read_bytes())
                file.unlink()
        rows.append(("join", *run.timed([program, "join"], joined)))
    print(f"| {given.width} x {given.height} | Seconds | Peak MB |\n|---|---|---|")
    for label, seconds, peak, _ in rows:
        print(f"| {label} | {seconds:.2f} | {peak:.0f} |")
    if rows[0][3] != rows[2][3]:
        raise SystemExit("the tiles that are joined aren't the whole")
    print(f"The bytes are the same; the load behind the runs was {os.getloadavg()[0]:.1f}.")


if __name__ == "__main__":
    main()
