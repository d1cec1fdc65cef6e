"""Refuses each growth of memory in turn, in small runs of the built program.

usage: python3 tests/growths.py MAXDETECT [CRATES [MAXSURVEY [MAXWIDE]]]

Given are the built programs, and the folder of crates with their built tests.

Each such run has status 5, has written nothing and says `out of memory`, or has status 0 and the whole output, which is
compared with what it has to be: a growth may be one that the run can do without. A run of three rows asks for memory
more often in two strips than in one, and more often in three than in two, since each strip is prepared by itself. Two
tests of crates hold with each growth refused: one counts the strips that come to the gate, none where memory was
refused, and else each; one looks at a plane whose background is taken off, whole or not at all. Sessions of `maxsurvey`
are tried in memory and over a file, of which a later run then lists what the session left: the tables before it, or
after some of its commands. An image is made a tile by `maxwide`, and joined again. It wants gcc, and takes some
seconds. Exit status 1 where a run does otherwise.
"""
import os
import pathlib
import shutil
import struct
import subprocess
import sys
import tempfile

TOP = pathlib.Path(__file__).resolve().parent.parent
# More than any of these runs asks for.
MANY = 1000


def image(width, height, pixels, extension=False):
    """A primary image of unsigned bytes, or an image extension."""
    cards = [
        ("XTENSION", "'IMAGE   '") if extension else ("SIMPLE", "T"),
        ("BITPIX", 8),
        ("NAXIS", 2),
        ("NAXIS1", width),
        ("NAXIS2", height),
    ]
    cards += [("PCOUNT", 0), ("GCOUNT", 1)] if extension else []
    header = "".join(f"{keyword:<8}= {value:>20}".ljust(80) for keyword, value in cards) + "END".ljust(80)
    return header.ljust(2880).encode("ascii") + bytes(pixels)


# A row of the catalogue, and where the map's data and the table's rows begin.
ROW = struct.Struct(">iqqiqqiiiiiiiiqqq")
MAP, ROWS = 5760, 14400


def is_lines(*texts):
    """Whether an output is these lines."""
    return lambda output: output == "".join(text + "\n" for text in texts).encode()


def is_filtered(*pixels):
    """Whether an output is an image of these pixels."""
    return lambda output: len(output) == 5760 and struct.unpack_from(f">{len(pixels)}q", output, 2880) == pixels


def is_found(labels, *rows):
    """Whether an output is a map of these labels with a table of these rows."""
    return (
        lambda output: len(output) == 17280
        and struct.unpack_from(f">{len(labels)}i", output, MAP) == labels
        and list(ROW.iter_unpack(output[ROWS : ROWS + len(rows) * ROW.size])) == list(rows)
        and not any(output[ROWS + len(rows) * ROW.size :])
    )


HILLS = image(5, 1, [1, 6, 2, 5, 1])
SLOPES = image(5, 1, [0, 1, 3, 2, 0])
SQUARE = image(3, 3, [5, 0, 6, 5, 2, 6, 3, 3, 3])
CORNER = image(2, 2, [1, 1, 1, 0])
# Few pixels are high, so that they are copied onto a sheet.
PAIR = image(6, 6, [0] * 14 + [7, 9] + [0] * 20)
BANDS = HILLS + bytes(-len(HILLS) % 2880) + image(5, 1, [10, 20, 30, 40, 7], extension=True)
FIVE_NODES = is_lines("0 0 1 - 9", "1 2 4 0 8", "2 3 6 1 7", "3 5 0 2 2", "4 6 2 2 2")
TWO_SOURCES = is_found(
    (0, 1, 0, 2, 0),
    (1, 6, 2, 1, 4, 6, 2, 2, 1, 1, 2, 1, 2000, 1000, 0, 0, 0),
    (2, 5, 2, 1, 3, 5, 4, 4, 1, 1, 4, 1, 4000, 1000, 0, 0, 0),
)
ONE_SOURCE = is_found((0, 1, 1, 1, 0), (1, 2, 1, 3, 10, 6, 2, 4, 1, 1, 2, 1, 2900, 1000, 666, 0, 0))
# The words of each run, its input, and what its output has to be. What the three last write is tested elsewhere.
RUNS = [
    *(
        (f"tree --strips {strips} --workers {workers}", SQUARE, FIVE_NODES)
        for strips in (1, 2, 3)
        for workers in (1, 3)
    ),
    ("filter --rule min --min-area 2 --max-area 2", SLOPES, is_filtered(0, 0, 0, 0, 0)),
    ("filter --rule max --min-area 2 --max-area 2", SLOPES, is_filtered(0, 1, 2, 2, 0)),
    ("filter --rule direct --min-area 2 --max-area 2", SLOPES, is_filtered(0, 0, 2, 2, 0)),
    ("filter --rule subtractive --min-area 2 --max-area 2", SLOPES, is_filtered(0, 0, 1, 1, 0)),
    ("filter --rule direct --min-fill 750", CORNER, is_filtered(1, 1, 1, 0)),
    ("filter --rule direct --min-fill 751", CORNER, is_filtered(0, 0, 0, 0)),
    ("detect --threshold 2 --contrast 300", HILLS, TWO_SOURCES),
    ("detect --threshold 2 --contrast 301", HILLS, ONE_SOURCE),
    ("detect --threshold 2 --contrast 1000", HILLS, ONE_SOURCE),
    ("detect --threshold 5 --min-area 2", PAIR, None),
    ("filter --rule min --mesh 2", HILLS, None),
    ("measure --values 1 --threshold 2 --contrast 300", BANDS, None),
]

# Sessions of maxsurvey: the words, and what they print. Each takes the catalogue of two sources, and then that of one.
SESSIONS = [
    ("add A add B list brightest 2", b"A 2 7\nB 1 10\nB 1 10 2900 1000\nA 1 4 2000 1000\n"),
    ("add A list add A drop A list", b"A 2 7\n"),
]
# What a session of two adds may leave in a file, as `list` prints it.
LEFT = [b"", b"A 2 7\n", b"A 2 7\nB 1 10\n"]

# Tests of crates that have to hold whatever growth is refused.
TESTS = {
    "strip_crew": "tests::no_strip_comes_to_the_gate_where_memory_is_refused",
    "mesh_background": "tests::background_is_subtracted_whole_or_not_at_all",
}


class Refuser:
    """Runs a program with one of its growths refused."""

    def __init__(self, folder):
        self.folder = folder
        self.library = folder / "refuse_growth.so"
        source = TOP / "tests" / "refuse_growth.c"
        subprocess.run(["gcc", "-O2", "-shared", "-fPIC", "-o", self.library, source, "-ldl"], check=True)

    def run(self, command, data, number):
        """The finished run, and how many growths it asked for."""
        count = self.folder / "count"
        count.write_bytes(bytes(8))
        env = dict(os.environ, LD_PRELOAD=str(self.library), REFUSE=str(number), COUNT=str(count))
        done = subprocess.run(command, input=data, capture_output=True, env=env, timeout=60)
        return done, int.from_bytes(count.read_bytes(), sys.byteorder)


def trials(refuser, program, words, data, is_right):
    """The number of growths of a run, and a line for each refusal that ends otherwise than it may."""
    command = [program, *words.split()]
    whole, count = refuser.run(command, data, 0)
    if whole.returncode != 0 or whole.stderr or not 0 < count < MANY:
        return count, [
            f"{words}: with ample memory it ends with {whole.returncode} and {whole.stderr!r} after {count} growths"
        ]
    wrong = []
    if is_right and not is_right(whole.stdout):
        wrong.append(f"{words}: with ample memory it writes something else")
    for number in range(1, count + 1):
        done, _ = refuser.run(command, data, number)
        ended = (done.returncode, done.stdout, done.stderr)
        if ended not in [(5, b"", b"out of memory\n"), (5, b"", b""), (0, whole.stdout, b"")]:
            wrong.append(
                f"{words}: with growth {number} refused it ends with {done.returncode}, "
                f"{len(done.stdout)} bytes written, {done.stderr!r}"
            )
    return count, wrong


def test_trials(refuser, tests, name):
    """The same of a test. It may itself want memory, for its plane or its cut; then it says so."""
    whole, count = refuser.run([tests, name], b"", 0)
    if whole.returncode != 0 or not 0 < count < MANY:
        return count, [f"{name}: with ample memory it ends with {whole.returncode} after {count} growths"]
    wrong, passed = [], 0
    for number in range(1, count + 1):
        done, _ = refuser.run([tests, name], b"", number)
        said = done.stdout + done.stderr
        passed += done.returncode == 0
        if done.returncode != 0 and not any(word in said for word in (b"OutOfMemory", b"AllocFailed")):
            wrong.append(f"{name}: with growth {number} refused it ends with {done.returncode}, {said!r}")
    if not 0 < passed:
        wrong.append(f"{name}: it passes with no growth refused")
    return count, wrong


def session_trials(refuser, program, words, data, printed, path):
    """The same of a session, whose output may be cut behind a command. Over a file, at the path, some hundred of the
    growths are refused, spread over all of them, since there are thousands; the file is made anew for each run."""
    if path:
        words = f"--file {path} {words}"
    command, wrong = [program, *words.split()], []
    fronts = [printed[:place] for place in range(len(printed) + 1) if place == 0 or printed[place - 1 : place] == b"\n"]
    number, count, step = 0, 0, 1
    while number <= count:
        for end in ("", "-wal", "-shm"):
            pathlib.Path(f"{path}{end}").unlink(missing_ok=True)
        done, asked = refuser.run(command, data, number)
        ended = (done.returncode, done.stderr)
        if number == 0:
            count = asked
            if ended != (0, b"") or done.stdout != printed or not 0 < count < 10 * MANY:
                return count, [
                    f"{words}: with ample memory it ends with {ended} and {done.stdout!r} after {count} growths"
                ]
            step = count // 128 + 1 if path else 1
        elif not (
            ended == (0, b"")
            and done.stdout == printed
            or ended in [(5, b"out of memory\n"), (5, b"")]
            and done.stdout in fronts
        ):
            wrong.append(
                f"{words}: with growth {number} refused it ends with {done.returncode}, "
                f"{done.stdout!r}, {done.stderr!r}"
            )
        if path:
            left = subprocess.run([program, "--file", path, "list"], capture_output=True, timeout=60)
            if left.returncode != 0 or left.stdout not in LEFT or (ended[0] == 0 and left.stdout != LEFT[-1]):
                wrong.append(
                    f"{words}: with growth {number} refused it leaves {left.stdout!r} "
                    f"({left.returncode}, {left.stderr!r})"
                )
        number += step
    return count, wrong


def survey_trials(refuser, maxdetect, maxsurvey):
    """The sessions in memory, and two adds over a file."""
    words = "detect --threshold 2 --contrast"
    catalogues = [
        subprocess.run([maxdetect, *words.split(), contrast], input=HILLS, capture_output=True, check=True).stdout
        for contrast in ("300", "301")
    ]
    wrong = []
    trials = [(text, printed, None) for text, printed in SESSIONS] + [
        ("add A add B list", LEFT[-1], refuser.folder / "survey.db")
    ]
    for text, printed, path in trials:
        count, found = session_trials(refuser, maxsurvey, text, b"".join(catalogues), printed, path)
        wrong += found
        print(
            f"maxsurvey, {'over a file' if path else 'in memory'}, {text}: {count} growths, "
            f"{len(found)} end otherwise than they may"
        )
    return wrong


def tile_trials(refuser, maxwide):
    """An image as the one tile of itself, and the same joined."""
    tile = "tile --whole 5 1 --window 0 0 5 1 --core 0 0 5 1 detect --threshold 2 --contrast 300"
    made = subprocess.run([maxwide, *tile.split()], input=HILLS, capture_output=True, check=True).stdout
    wrong = []
    for words, data, is_right in ((tile, HILLS, None), ("join", made, TWO_SOURCES)):
        count, found = trials(refuser, maxwide, words, data, is_right)
        wrong += found
        print(f"maxwide {words}: {count} growths, {len(found)} end otherwise than they may")
    return wrong


def main():
    if not shutil.which("gcc"):
        print("skipped: tests/growths.py wants gcc")
        return 0
    program = pathlib.Path(sys.argv[1]).resolve()
    counts, wrong = {}, []
    with tempfile.TemporaryDirectory() as folder:
        refuser = Refuser(pathlib.Path(folder))
        for words, data, is_right in RUNS:
            counts[words], found = trials(refuser, program, words, data, is_right)
            wrong += found
            print(f"{words}: {counts[words]} growths, {len(found)} end otherwise than they may")
        for crate, name in TESTS.items() if len(sys.argv) > 2 else ():
            count, found = test_trials(
                refuser, pathlib.Path(sys.argv[2], crate, "out", f"{crate}_tests").resolve(), name
            )
            wrong += found
            print(f"{crate}, {name}: {count} growths, {len(found)} end otherwise than they may")
        if len(sys.argv) > 3:
            wrong += survey_trials(refuser, program, pathlib.Path(sys.argv[3]).resolve())
        if len(sys.argv) > 4:
            wrong += tile_trials(refuser, pathlib.Path(sys.argv[4]).resolve())
    one, two, three = (counts[f"tree --strips {strips} --workers 1"] for strips in (1, 2, 3))
    if not one < two < three:
        wrong.append("more strips don't ask for memory more often")
    print("\n".join(wrong), end="\n" if wrong else "")
    return 1 if wrong else 0


sys.exit(main())
