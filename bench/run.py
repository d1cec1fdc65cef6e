"""Times `maxdetect tree`, `filter` and `detect` beside other programs, in one run, and prints a table in Markdown.

usage: python3 bench/run.py MAXDETECT [--runs N] [--before EARLIER] [SIDE ..]

MAXDETECT is the built program. The sides are 1024, 2048 and 4096 if left out; each job is run N times (3 if left out), and the least time counts.
EARLIER is the built program of an earlier state, which is then timed on the same files and must write the same bytes.

The images are star fields of 16 bits (examples/star_field.py), white noise of 32 bits with sigma 1,000 (2048 x 2048), and noise of nearly as many
values as there are pixels, with one, four and sixteen strips, since that is where joining strips costs most. The yardstick for `tree` is a plain
union-find in C++ (it wants g++), whose output must be the same bytes. Where they are installed it also times scikit-image's
max-tree and Source Extractor (Debian: python3-skimage with python3-astropy, and source-extractor) on the same files; these do other work, so their
outputs are not compared. Times are wall clock, with reading and writing; memory is the peak of the process. maxdetect runs with large pages of memory,
as `./maxdetect` and the Python package have it; rows of "small pages" are without. Run it with nothing else running.
"""
import argparse
import array
import hashlib
import os
import pathlib
import random
import re
import shutil
import subprocess
import sys
import tempfile
import time

TOP = pathlib.Path(__file__).resolve().parent.parent
# What `./maxdetect` and the Python package ask the C library for.
LARGE_PAGES = re.search(r"GLIBC_TUNABLES=[\w.=:]+", (TOP / "maxdetect").read_text())[0]
CREWS = [(16, 1), (16, 2), (16, 4)]
MAX_TREE = """
import sys
from astropy.io import fits
from skimage.morphology import max_tree
image = fits.getdata(sys.argv[1]).astype("f4").astype("i4")
parents, order = max_tree(image, connectivity=2)
print(len(order))
"""
JOBS = {
    "tree": ["tree"],
    "filter": ["filter", "--rule", "direct", "--min-area", "20"],
    "detect": ["detect", "--threshold", "60", "--min-area", "5", "--mesh", "64"],
}
# Every pixel is above this threshold, so nothing can be left out.
ALL_ABOVE = {"detect, all above": ["detect", "--threshold", "-1000000", "--min-area", "5", "--mesh", "64"]}
# Noise of many values, each with the side of its image and what draws a pixel.
MANY_VALUES = {
    "60,000 values, evenly, 1024 x 1024": (1024, lambda rng: rng.randrange(60_000)),
    "noise of sigma 10,000, 2048 x 2048": (2048, lambda rng: round(rng.gauss(0, 10_000))),
    "60,000 values, evenly, 2048 x 2048": (2048, lambda rng: rng.randrange(60_000)),
    "noise of sigma 1,000,000, 1024 x 1024": (1024, lambda rng: round(rng.gauss(0, 1_000_000))),
    "noise of sigma 1,000,000, 2048 x 2048": (2048, lambda rng: round(rng.gauss(0, 1_000_000))),
}
# The yardstick of each job.
YARDSTICKS = {"tree": "union-find in C++", "detect": "Source Extractor"}


def timed(command, image):
    """Seconds, peak megabytes and a digest of the output."""
    with tempfile.TemporaryFile() as output, open(image, "rb") as source:
        start = time.perf_counter()
        process = subprocess.Popen(command, stdin=source, stdout=output, stderr=subprocess.DEVNULL)
        _, status, usage = os.wait4(process.pid, 0)
        seconds = time.perf_counter() - start
        if status != 0:
            sys.exit(f"{command} ended with {status}")
        output.seek(0)
        digest = hashlib.sha256()
        while piece := output.read(1 << 20):
            digest.update(piece)
    return seconds, usage.ru_maxrss / 1024, digest.hexdigest()


def least(command, image, runs):
    """The least time of some runs, the greatest peak, and the digest, which must be the same each time."""
    results = [timed(command, image) for _ in range(runs)]
    if len({digest for _, _, digest in results}) != 1:
        sys.exit(f"{command} wrote other bytes in another run")
    return min(seconds for seconds, _, _ in results), max(peak for _, peak, _ in results), results[0][2]


def star_field(path, side):
    """A star field of 16 bits."""
    with open(path, "wb") as file:
        subprocess.run([sys.executable, TOP / "examples" / "star_field.py", str(side), str(side)], stdout=file, check=True)


def noise(path, side, draw):
    """Noise of 32 bits, each pixel drawn by itself."""
    rng = random.Random(1)
    cards = [("SIMPLE", "T"), ("BITPIX", 32), ("NAXIS", 2), ("NAXIS1", side), ("NAXIS2", side)]
    header = "".join(f"{keyword:<8}= {value:>20}".ljust(80) for keyword, value in cards) + "END".ljust(80)
    numbers = array.array("i", (draw(rng) for _ in range(side * side)))
    if sys.byteorder == "little":
        numbers.byteswap()
    data = numbers.tobytes()
    path.write_bytes(header.ljust(2880).encode("ascii") + data + b"\0" * (-len(data) % 2880))


def yardstick(folder):
    """The union-find, if there is a compiler for it."""
    if not shutil.which("g++"):
        return
    program = folder / "reference"
    if not program.exists():
        subprocess.run(["g++", "-O2", "-o", program, TOP / "bench" / "reference.cpp"], check=True)
    yield "tree", YARDSTICKS["tree"], [program, "8"]


def maxdetect_runs(program, name, jobs, crews):
    """Each job in one strip, and in some strips with some workers; the first and the last of these also with small pages of memory."""
    for job, words in jobs.items():
        commands = {f"{name}, one strip": [program, *words, "--connect", "8"]}
        for strips, workers in crews:
            crew = "1 worker" if workers == 1 else f"{workers} workers"
            commands[f"{name}, {strips} strips, {crew}"] = [program, *words, "--connect", "8", "--strips", str(strips), "--workers", str(workers)]
        for label, command in commands.items():
            yield job, label, ["env", LARGE_PAGES, *command]
        for label in [*commands][:: max(len(commands) - 1, 1)]:
            yield job, f"{label}, small pages", ["env", "-u", "GLIBC_TUNABLES", *commands[label]]


def others(folder, image, side):
    """Other programs of the field, where they are installed. scikit-image's tree takes minutes at 4096 x 4096, and is left out there."""
    python = "/usr/bin/python3"
    if side <= 1024 and os.path.exists(python) and subprocess.run([python, "-c", "import skimage, astropy"], capture_output=True).returncode == 0:
        yield "max-tree alone", "scikit-image", [python, "-c", MAX_TREE, image]
    yield from source_extractor(folder, image)


def source_extractor(folder, image, *more):
    """Source Extractor's background and detection, with further options, where it is installed."""
    extractor = shutil.which("source-extractor") or shutil.which("sex")
    if extractor:
        columns = folder / "columns"
        columns.write_text("NUMBER\nX_IMAGE\nY_IMAGE\nFLUX_ISO\n")
        settings = folder / "settings"
        settings.write_text("")
        options = ["-PARAMETERS_NAME", columns, "-FILTER", "N", "-CATALOG_NAME", folder / "catalogue", "-DETECT_MINAREA", "5"]
        options += ["-CHECKIMAGE_TYPE", "SEGMENTATION", "-CHECKIMAGE_NAME", folder / "segments.fits", "-VERBOSE_TYPE", "QUIET"]
        yield "detect", YARDSTICKS["detect"], [extractor, image, "-c", settings, *options, *more]


def print_rows(title, runs, image, count):
    """A row for each program, with its share of its job's yardstick, which comes first. The outputs of one job are compared."""
    digests, yardsticks = {}, {}
    for job, label, command in runs:
        seconds, peak, digest = least(command, image, count)
        if label in YARDSTICKS.values():
            yardsticks[job] = seconds
        if label != YARDSTICKS["detect"]:
            digests.setdefault(job, set()).add(digest)
        share = f"{seconds / yardsticks[job]:.2f}" if job in yardsticks else ""
        print(f"| {title} | {job} | {label} | {seconds:.2f} | {share} | {peak:.0f} |", flush=True)
    if any(len(same) != 1 for same in digests.values()):
        sys.exit(f"the outputs of one job differ on {title}")


def main():
    parser = argparse.ArgumentParser(description=__doc__.splitlines()[0])
    parser.add_argument("maxdetect", type=pathlib.Path)
    parser.add_argument("--runs", type=int, default=3)
    parser.add_argument("--before", type=pathlib.Path)
    parser.add_argument("sides", type=int, nargs="*", default=[1024, 2048, 4096])
    options = parser.parse_intermixed_args()
    programs = [("maxdetect", options.maxdetect.resolve())]
    if options.before:
        programs.append(("before", options.before.resolve()))
    print("| Image | Job | Program | Seconds | Share of the yardstick | Peak MB |")
    print("|---|---|---|---|---|---|")
    with tempfile.TemporaryDirectory() as name:
        folder = pathlib.Path(name)
        image = folder / "image.fits"
        for side in options.sides:
            star_field(image, side)
            runs = [*yardstick(folder), *others(folder, image, side)]
            for label, program in programs:
                runs += maxdetect_runs(program, label, JOBS, CREWS)
                runs += maxdetect_runs(program, label, ALL_ABOVE, [])
            print_rows(f"{side} x {side}", runs, image, options.runs)
        tree = {"tree": JOBS["tree"]}
        noise(image, 2048, lambda rng: round(rng.gauss(0, 1000)))
        runs = [*yardstick(folder)]
        for label, program in programs:
            runs += maxdetect_runs(program, label, tree, [(16, 4)])
        print_rows("noise of sigma 1,000, 2048 x 2048", runs, image, options.runs)
        for title, (side, draw) in MANY_VALUES.items():
            noise(image, side, draw)
            print_rows(title, maxdetect_runs(programs[0][1], programs[0][0], tree, [(4, 4), (16, 4)]), image, options.runs)
    print("All outputs of one job on one image are the same bytes.")


if __name__ == "__main__":
    main()
