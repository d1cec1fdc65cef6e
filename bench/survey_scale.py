"""Times a survey of many fields: adding, listing, ranking, and exporting.

usage: /usr/bin/python3 bench/survey_scale.py MAXSURVEY [FIELDS [SOURCES]]    (10,000 fields of 150 sources by default)

The catalogues are made up: sources at random places with random fluxes. They are added in runs of a thousand fields,
and one more field by a run of its own. It prints what each step takes in seconds, and how large the file is.
"""

import os
import pathlib
import subprocess
import sys
import tempfile
import time

import numpy
from astropy.table import Table

TOP = pathlib.Path(__file__).resolve().parent.parent
sys.path.insert(0, str(TOP / "python"))

from maxdetect import _adding as adding, _exporting as exporting, _surveys as surveys  # noqa: E402

RUN = 1000


def catalogue(rng, count):
    """A catalogue of made-up sources, as bytes."""
    columns = {name: rng.integers(1, 2000, count) for name in surveys.COLUMNS}
    columns["FLUX"] = rng.pareto(1.5, count) * 1000
    return adding.survey_file(Table(columns))


def timed(what, words, given=b""):
    begun = time.monotonic()
    done = subprocess.run(words, input=given, stdout=subprocess.PIPE, check=True)
    print(f"{what:44} {time.monotonic() - begun:8.2f}", flush=True)
    return done.stdout


def main(maxsurvey, fields=10000, sources=150):
    rng = numpy.random.default_rng(1)
    with tempfile.TemporaryDirectory() as folder:
        path = os.path.join(folder, "survey.db")
        program = [maxsurvey, "--file", path]
        total = 0.0
        for first in range(0, fields, RUN):
            names = [f"F{number:06}" for number in range(first, min(first + RUN, fields))]
            data = b"".join(catalogue(rng, sources) for _ in names)
            begun = time.monotonic()
            subprocess.run([*program, *(word for name in names for word in ("add", name))], input=data, check=True)
            total += time.monotonic() - begun
        print(f"{f'{fields} fields of {sources} sources, {RUN} a run':44} {total:8.2f}")
        print(f"{'bytes of the file':44} {os.path.getsize(path):8}")
        timed("one more field", [*program, "add", "LATE"], catalogue(rng, sources))
        timed("list", [*program, "list"])
        timed("brightest 1000", [*program, "brightest", "1000"])
        for end in ("fits", "vot", "db"):
            begun = time.monotonic()
            exporting.run([path, "-o", os.path.join(folder, f"all.{end}")])
            print(f"{f'export to .{end}':44} {time.monotonic() - begun:8.2f}")
        begun = time.monotonic()
        surveys.survey(path).brightest(1000)
        print(f"{'brightest 1000 in Python':44} {time.monotonic() - begun:8.2f}")


if __name__ == "__main__":
    main(sys.argv[1], *(int(word) for word in sys.argv[2:]))
