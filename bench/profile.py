"""Where the time of `maxdetect` goes: the shares of its steps, by a profile with `perf` (Debian: linux-perf).

usage: python3 bench/profile.py MAXDETECT IMAGE WORD ..      (the words of a command, as `tree --connect 8`)

The compiler merges small functions into those that call them, so a step goes by the outermost function that it left standing.
"""
import collections
import pathlib
import re
import subprocess
import sys
import tempfile

# The first pattern that a function's name has names the step.
STEPS = [
    ("sorting and looking up numbers", r"sort|binary_search"),
    ("shared out among workers: ranks, flooding, residual, marks, map", r"strip_flood|std::thread::fork"),
    ("joining rows", r"tree_join|join_strips"),
    ("canonical numbering", r"tree_canon"),
    ("sums and areas", r"node_sums"),
    ("sources and their map", r"source_pick"),
    ("background", r"mesh_background|rayon"),
    ("reading pixels", r"pixel_plane"),
    ("planes of few pixels", r"comp_tree"),
    ("making output", r"product::write|dev_io|fits_write|itoa"),
    ("the rest of the pipeline, merged into a few functions", r"detect_top|measure_top"),
    ("copying and clearing memory", r"mem(move|set|cpy)"),
]


def step_of(kind, name):
    if kind == "k":
        return "the system: pages of memory, reading and writing"
    for step, pattern in STEPS:
        if re.search(pattern, name):
            return step
    return "other"


def main():
    program, image, words = pathlib.Path(sys.argv[1]).resolve(), sys.argv[2], sys.argv[3:]
    with tempfile.TemporaryDirectory() as folder:
        record = f"{folder}/perf.data"
        with open(image, "rb") as source:
            command = ["perf", "record", "-q", "-F", "999", "-o", record, program, *words]
            subprocess.run(command, stdin=source, stdout=subprocess.DEVNULL, stderr=subprocess.DEVNULL, check=True)
        command = ["perf", "report", "-i", record, "--no-children", "--sort", "symbol"]
        report = subprocess.run(command, capture_output=True, text=True, check=True).stdout
    shares = collections.Counter()
    for share, kind, name in re.findall(r"^\s*([\d.]+)%\s+\[(.)\]\s+(\S+)", report, re.MULTILINE):
        shares[step_of(kind, name)] += float(share)
    for step, share in shares.most_common():
        print(f"{share:5.1f} %  {step}")


main()
