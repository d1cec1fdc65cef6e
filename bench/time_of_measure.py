"""The time that `measure` takes in two bands, beside that of `detect` on the first of them.

usage: python3 bench/time_of_measure.py MAXDETECT [--side N] [--runs N]

MAXDETECT is the built program; N is 4096 and 3 where it isn't given. The file is a star field in two bands
(examples/star_field.py), and both commands have the same threshold, least area and mesh. The runs take turns, in one
strip, and in 16 strips with four workers; each time is the median of its runs, and memory is the peak of a process.
"""
import argparse
import os
import pathlib
import re
import statistics
import subprocess
import sys
import tempfile
import time

TOP = pathlib.Path(__file__).resolve().parent.parent
# What `./maxdetect` and the Python package ask the C library for.
LARGE_PAGES = re.search(r"GLIBC_TUNABLES=([\w.=:]+)", (TOP / "maxdetect").read_text())[1]
SOURCES = ["--threshold", "60", "--min-area", "5", "--mesh", "64", "--connect", "8"]
CREWS = {"one strip": [], "16 strips, 4 workers": ["--strips", "16", "--workers", "4"]}
COMMANDS = {"detect": ["detect"], "measure": ["measure", "--values", "1"]}


def timed(program, image, words):
    """Seconds and peak megabytes."""
    with open(image, "rb") as source:
        start = time.perf_counter()
        process = subprocess.Popen(
            [program, *words],
            stdin=source,
            stdout=subprocess.DEVNULL,
            env={**os.environ, "GLIBC_TUNABLES": LARGE_PAGES},
        )
        _, status, usage = os.wait4(process.pid, 0)
        seconds = time.perf_counter() - start
    if status != 0:
        sys.exit(f"{' '.join(words)} ended with {status}")
    return seconds, usage.ru_maxrss // 1024


def main():
    parser = argparse.ArgumentParser()
    parser.add_argument("program", type=pathlib.Path)
    parser.add_argument("--side", type=int, default=4096)
    parser.add_argument("--runs", type=int, default=3)
    given = parser.parse_args()
    with tempfile.TemporaryDirectory() as folder:
        image = pathlib.Path(folder) / "bands.fits"
        with open(image, "wb") as target:
            subprocess.run(
                [sys.executable, TOP / "examples" / "star_field.py", str(given.side), str(given.side), "1", "2"],
                stdout=target,
                check=True,
            )
        for crew, words in CREWS.items():
            times = {name: [] for name in COMMANDS}
            for _ in range(given.runs):
                for name, command in COMMANDS.items():
                    times[name].append(timed(given.program.resolve(), image, [*command, *SOURCES, *words]))
            middle = {name: statistics.median(seconds for seconds, _ in taken) for name, taken in times.items()}
            peak = {name: max(megabytes for _, megabytes in taken) for name, taken in times.items()}
            for name in COMMANDS:
                share = f", {middle[name] / middle['detect']:.2f} of detect" if name != "detect" else ""
                print(f"{middle[name]:.2f} s, {peak[name]} MB  {name}, {crew}{share}")


main()
