"""The time that a background takes, beside that of reading the image and writing the map.

usage: python3 bench/background.py MAXDETECT [--side N] [--runs N]      (MAXDETECT is the built program; N is 4096 and 5 where it isn't given)

It runs `detect` on a star field with a threshold above every value, so nothing is flooded: without a mesh the image is read and an empty map is
written; with `--mesh 64` a background is taken off besides. The runs take turns, and each time is the median of its runs. Four workers each time.
"""
import argparse
import pathlib
import statistics
import subprocess
import sys
import tempfile
import time

TOP = pathlib.Path(__file__).resolve().parent.parent
WORDS = ["detect", "--threshold", str(2**37), "--strips", "16", "--workers", "4"]
KINDS = {
    "reading and writing": [],
    "with a smooth background": ["--mesh", "64"],
    "with a flat background": ["--mesh", "64", "--flat", "1"],
}


def seconds(program, image, words):
    with open(image, "rb") as source:
        start = time.perf_counter()
        subprocess.run([program, *WORDS, *words], stdin=source, stdout=subprocess.DEVNULL, check=True)
    return time.perf_counter() - start


def main():
    parser = argparse.ArgumentParser()
    parser.add_argument("program", type=pathlib.Path)
    parser.add_argument("--side", type=int, default=4096)
    parser.add_argument("--runs", type=int, default=5)
    given = parser.parse_args()
    times = {kind: [] for kind in KINDS}
    with tempfile.TemporaryDirectory() as folder:
        image = pathlib.Path(folder) / "field.fits"
        with open(image, "wb") as target:
            subprocess.run([sys.executable, TOP / "examples" / "star_field.py", str(given.side), str(given.side)], stdout=target, check=True)
        for _ in range(given.runs):
            for kind, words in KINDS.items():
                times[kind].append(seconds(given.program.resolve(), image, words))
    plain = statistics.median(times["reading and writing"])
    for kind, taken in times.items():
        middle = statistics.median(taken)
        print(f"{middle:.2f} s  {kind}" + (f": the background is {(middle - plain) / plain:.2f} of reading and writing" if KINDS[kind] else ""))


main()
