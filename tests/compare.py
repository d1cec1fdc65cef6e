"""Runs maxdetect and maxsurvey beside the plain model on random words and files, and tells the first difference.

usage: python3 tests/compare.py MAXDETECT MAXSURVEY [--maxwide PROGRAM] [--cases N | --seconds S] [--seed N]
           [--workers N]

Case k of a seed is always the same. Images have at most 36 pixels; headers and words are mostly in order, and often
damaged. Status, output, notes and the number of bytes taken from the input are compared, and of sessions of maxsurvey
over one file the tables that are left, by a session after them. With --maxwide each run of maxdetect is one of that
program too, and images are cut into tiles and joined again. A difference is printed with the command, a file with the
input's bytes, and what both answered; the exit status is then 1.
"""
import argparse
import concurrent.futures
import os
import random
import subprocess
import sys
import tempfile
import time

import model
from model.headers import Image
from model.programs import card, detection_bytes, hdu_bytes, to_block
from model.sources import COLUMNS, MEASURES, image_median

SECONDS = 30
LISTED = ["list", "brightest", "1000"]
# Axes of images that are too large, or too large for what follows them.
HUGE = [[65536, 1], [1, 65536], [4097, 4096], [65535, 256], [2**40, 1], [2**41], [2**62, 4]]
HUGE += [[2**63 - 1] * 3, [2**63 - 1, 0]]


# ---- random images and files


def random_values(rng, count, bits):
    """Stored numbers of few or of many values, sometimes the least and the greatest that there are."""
    least, greatest = (0, 255) if bits == 8 else (-(2 ** (bits - 1)), 2 ** (bits - 1) - 1)
    if bits == 64 and rng.random() < 0.9:
        least, greatest = -(2**36), 2**36
    few = rng.choice([2, 3, 5, 12, 1000])
    low = rng.randint(least, greatest - min(few, greatest - least)) if rng.random() < 0.3 else max(least, 0)
    values = [low + rng.randrange(min(few, greatest - low + 1)) for _ in range(count)]
    return [rng.choice([least, greatest]) if rng.random() < 0.02 else value for value in values]


def number_text(rng, number):
    """One of the ways in which a card may give a whole number."""
    ways = [f"{number:>20}", f"{number}", f"{number}.", f"{number}.0E0 / a comment", f"{number}0D-1", f"{number:+05}"]
    return ways[0] if rng.random() < 0.6 else rng.choice(ways)


def raw_card(keyword, text):
    return f"{keyword:<8}= {text}".ljust(80)[:80].encode("ascii")


def odd_cards(rng, values):
    """Cards that change how the pixels are read, and others that don't."""
    cards = []
    if rng.random() < 0.3:
        zero = rng.choice([1, -7, 128, 32768, 2147483648, -(2**32), 2**32, 2**32 + 1, -20])
        cards.append(raw_card("BZERO", number_text(rng, zero)))
    if rng.random() < 0.4:
        cards.append(raw_card("BLANK", number_text(rng, rng.choice(values + [256, -(2**63), 2**63]))))
    if rng.random() < 0.2:
        cards.append(raw_card("BSCALE", rng.choice(["1", "1.0", "10E-1", "2", "'1'", "0.5", "T", "/ none"])))
    if rng.random() < 0.2:
        cards.append(raw_card(rng.choice(["GROUPS", "PCOUNT", "GCOUNT"]), rng.choice(["T", "0", "1", "-1", "2", "F"])))
    cards += [b"COMMENT = 'not a value".ljust(80), b"HISTORY".ljust(80)] if rng.random() < 0.1 else []
    rng.shuffle(cards)
    return cards + [rng.choice(cards)] if cards and rng.random() < 0.2 else cards


def image_hdu(rng, is_primary, shape=None):
    """An HDU with a small image."""
    bits = rng.choice([8, 8, 16, 32, 64])
    width, height = shape or (rng.randint(1, 6), rng.randint(1, 6))
    values = random_values(rng, width * height, bits)
    axes = rng.choice(HUGE) if rng.random() < 0.04 else [width, height] + [1] * (rng.random() < 0.1)
    cards = [
        card("SIMPLE", True) if is_primary else card("XTENSION", "IMAGE"),
        card("BITPIX", bits),
        card("NAXIS", len(axes)),
    ]
    cards += [card(f"NAXIS{axis}", side) for axis, side in enumerate(axes, 1)]
    cards += [card("PCOUNT", 0), card("GCOUNT", 1)] if not is_primary and rng.random() < 0.8 else []
    cards += odd_cards(rng, values)
    data = b"".join(value.to_bytes(bits // 8, "big", signed=bits > 8) for value in values)
    return to_block(b"".join(cards) + b"END".ljust(80), b" ") + to_block(data)


def other_hdu(rng):
    """An HDU without an image that is read."""
    kinds = [
        [
            ("XTENSION", "BINTABLE"),
            ("BITPIX", 8),
            ("NAXIS", 2),
            ("NAXIS1", 8),
            ("NAXIS2", 2),
            ("PCOUNT", 3),
            ("GCOUNT", 1),
        ],
        [
            ("XTENSION", "IMAGE"),
            ("BITPIX", -32),
            ("NAXIS", 2),
            ("NAXIS1", 2),
            ("NAXIS2", 2),
            ("PCOUNT", 0),
            ("GCOUNT", 1),
        ],
        [("XTENSION", "IMAGE"), ("BITPIX", 16), ("NAXIS", 3), ("NAXIS1", 2), ("NAXIS2", 1), ("NAXIS3", 2)],
        [("XTENSION", "IMAGE"), ("BITPIX", 8), ("NAXIS", 0)],
    ]
    return hdu_bytes(rng.choice(kinds), bytes(rng.choice([0, 16, 19])))


def random_file(rng, extensions):
    """A file with some HDUs, most of them images; those of one file often have one shape."""
    shape = (rng.randint(1, 6), rng.randint(1, 6))
    some = rng.random() < 0.6
    first = image_hdu(rng, True, shape if some else None)
    if rng.random() < 0.15:
        first = hdu_bytes([("SIMPLE", True), ("BITPIX", 8), ("NAXIS", 0), ("EXTEND", True)], b"")
    hdus = [first]
    for _ in range(rng.choice(extensions)):
        hdus.append(
            other_hdu(rng) if rng.random() < 0.2 else image_hdu(rng, False, shape if rng.random() < 0.8 else None)
        )
    return damaged(rng, b"".join(hdus)) if rng.random() < 0.3 else b"".join(hdus)


def damaged(rng, data):
    """The bytes with one thing wrong: cut, some bytes changed, a card put in, taken out or exchanged for another."""
    kind, at = rng.randrange(5), rng.randrange(len(data) + 1)
    place = 80 * rng.randrange(min(len(data) // 80, 14))
    if kind == 0:
        return data[:at]
    if kind == 1:
        changed = bytearray(data)
        for _ in range(rng.randint(1, 3)):
            changed[rng.randrange(min(len(changed), 1000))] = rng.choice(b" 0123456789ETF'/=-.\xff")
        return bytes(changed)
    if kind == 2:
        return data[:place] + rng.choice([b"END".ljust(80), card("NAXIS1", 3), card("GROUPS", True)]) + data[place:]
    if kind == 3:
        return data[:place] + data[place + 80 :]
    return (
        data + bytes(rng.choice([1, 79, 2880]))
        if rng.random() < 0.5
        else data[: len(data) // 2880 * 2880 - rng.randrange(2880)]
    )


# ---- random words


def option_words(rng, command):
    """Options of a command with values that mostly fit small images."""
    near = {
        "threshold": lambda: rng.randint(-3, 12),
        "min-area": lambda: rng.randint(0, 4),
        "max-area": lambda: rng.choice(
            [rng.randint(0, 30), rng.randint(0, 30), 2**24, 2**24 + 1, 2**31 - 1, 2**31]
        ),
    }
    near.update(
        {
            "min-flux": lambda: rng.randint(0, 9),
            "min-fill": lambda: rng.randint(0, 1000),
            "contrast": lambda: rng.choice([0, 5, 300, 1000]),
        }
    )
    near.update(
        {"mesh": lambda: rng.randint(0, 4), "flat": lambda: rng.randint(0, 1), "connect": lambda: rng.choice([4, 8])}
    )
    near.update(
        {
            "strips": lambda: rng.randint(1, 7),
            "workers": lambda: rng.randint(1, 4),
            "hdu": lambda: rng.choice([0, 0, 0, 1, 2]),
        }
    )
    near.update(
        {
            "values": lambda: rng.choice([1, 1, 1, 1, 2, 0]),
            "rule": lambda: rng.choice(["min", "max", "direct", "subtractive"]),
        }
    )
    near.update(
        {
            "seed": lambda: rng.randrange(2**32),
            "width": lambda: rng.randint(1, 7),
            "height": lambda: rng.randint(1, 5),
        }
    )
    known = model.programs.OPTIONS[command]
    for name in rng.sample(sorted({**model.programs.COMMON, **known}), len(known) + len(model.programs.COMMON)):
        if name in known and known[name] is None and rng.random() < 0.98 or rng.random() < 0.4:
            yield [f"--{name}", str(near[name]())]


def random_words(rng):
    command = rng.choice(["tree", "filter", "detect", "detect", "measure", "measure", "trial"])
    words = [command, *(word for pair in option_words(rng, command) for word in pair)]
    return damaged_words(rng, words) if rng.random() < 0.15 else words


def damaged_words(rng, words):
    """The words with one of them changed, doubled, put in or taken out."""
    odd = [
        "",
        "-",
        "--",
        "-0",
        "007",
        "+1",
        "1.",
        "--hdu",
        "--mesh",
        "65536",
        "99999999999999999999",
        "-1",
        "tree",
        "draw",
        "--help",
    ]
    place = rng.randrange(len(words) + 1)
    kind = rng.randrange(3)
    if kind == 0:
        return words[:place] + [rng.choice(odd)] + words[place + (rng.random() < 0.7) :]
    if kind == 1:
        return words[:place] + words[place + 1 :]
    return words + words[place : place + 2]


def random_catalogue(rng):
    """What detect writes of a small image, or a file of that form with other rows, sometimes damaged."""
    if rng.random() < 0.3:
        words = ["detect", "--threshold", "2", "--connect", "8", "--contrast", "300"]
        found = model.answer(words, image_hdu(rng, True))
        return found.output if found.status == 0 else b""
    rows = [
        [number, *(rng.choice([0, 1, 2, rng.randint(-(2**31), 2**31 - 1)]) for _ in COLUMNS[1:])]
        for number in range(1, rng.randint(1, 5))
    ]
    if rows and rng.random() < 0.1:
        rows[-1][0] += rng.choice([1, -1])
    for row in rows:
        row[4] = rng.choice([row[4], 2**62, -5])
    is_measured = rng.random() < 0.05
    columns, rows = (
        (COLUMNS + MEASURES, [row + [0] * len(MEASURES) for row in rows]) if is_measured else (COLUMNS, rows)
    )
    data = detection_bytes(Image(2, [0, 0]), [], columns, rows)
    if rng.random() < 0.05:
        return data.replace(card("NAXIS2", len(rows)), card("NAXIS2", rng.choice([len(rows) + 40, 2**20 + 1])))
    return damaged(rng, data) if rng.random() < 0.1 else data


def random_session(rng):
    """Commands of a session, and its input."""
    words, data = [], b""
    for _ in range(rng.randint(0, 6)):
        name = rng.choice(["add", "add", "add", "add", "add", "drop", "list", "list", "brightest"])
        words.append(name)
        if name == "brightest":
            words.append(str(rng.choice([1, 2, 5, 1000, 0, 1001])) if rng.random() < 0.1 else str(rng.randint(1, 6)))
        elif name != "list":
            words.append(rng.choice(["A", "B", "a", "NORTH_1", "x-2", "A234567890123456"]))
        data += random_catalogue(rng) if name == "add" else b""
    return damaged_words(rng, words) if rng.random() < 0.1 else words, data


# ---- an image in tiles


def plain_image(width, values):
    """The file of an image of 16 bits, in which None stands for no value."""
    cards = [("SIMPLE", True), ("BITPIX", 16), ("NAXIS", 2), ("NAXIS1", width), ("NAXIS2", len(values) // width)]
    stored = [-(2**15) if value is None else value for value in values]
    return hdu_bytes(
        [*cards, ("BLANK", -(2**15))], b"".join(value.to_bytes(2, "big", signed=True) for value in stored)
    )


def random_cuts(rng, side, mesh):
    """Stretches that make up a side, each with one around it that begins on the mesh."""
    cuts = sorted({0, side, *(rng.randint(0, side) for _ in range(rng.choice([0, 0, 1, 1, 2])))})
    for begin, end in zip(cuts, cuts[1:]):
        first = max(begin - rng.choice([0, 1, 2, 6, 9]), 0)
        yield begin, end, first // max(mesh, 1) * max(mesh, 1), min(end + rng.choice([0, 1, 2, 6, 9]), side)


def random_tiles(rng, width, height, mesh):
    """The words of tiles that make up an image, now and then without one of them or with two that overlap."""
    columns, rows = list(random_cuts(rng, width, mesh)), list(random_cuts(rng, height, mesh))
    places = []
    for top, bottom, above, below in rows:
        for left, right, before, behind in columns:
            window = [before, above, behind - before, below - above]
            places.append((window, [left, top, right - left, bottom - top]))
    if rng.random() < 0.1:
        places += [rng.choice(places)]
    if rng.random() < 0.1:
        places.remove(rng.choice(places))
    rng.shuffle(places)
    return places


def tile_runs(rng, program, folder):
    """Runs of maxwide over the tiles of an image, one that joins them, and the whole where this gives an answer. Half
    give the image's median for the mesh's cells without a value, some another number. The whole isn't compared with
    tiles of another number, of damaged words, or damaged on their way.
    """
    width, height, mesh = rng.randint(1, 12), rng.randint(1, 9), rng.choice([0, 0, 0, 1, 2, 3])
    few = rng.choice([2, 3, 6, 40])
    gaps = rng.choice([0.05, 0.05, 0.5])
    values = [None if rng.random() < gaps else rng.randrange(few) - few // 3 for _ in range(width * height)]
    median = image_median(Image(width, values))
    number = rng.choice([None, None, median, median, median, rng.choice([-few, few, -(2**29), 2**29, 2**29 + 1])])
    empty = [] if number is None else ["--empty-cells", str(number)]
    options = dict(option_words(rng, "detect"), **{"--hdu": "0", "--mesh": str(mesh)})
    options["--threshold"] = str(rng.randint(1, few))
    detect = ["detect", *(word for pair in options.items() for word in pair)]
    files, whole = [], number in (None, median)
    for window, core in random_tiles(rng, width, height, mesh):
        left, top, columns, rows = window
        places = ["--whole", width, height, "--window", *window, "--core", *core]
        right = ["tile", *map(str, places), *empty, *detect]
        words = damaged_words(rng, right) if rng.random() < 0.05 else right
        whole = whole and words == right
        seen = [values[y * width + x] for y in range(top, top + rows) for x in range(left, left + columns)]
        data = plain_image(columns, seen)
        files.append(run(program, words, data, folder))
        yield words, data, model.wide_answer(words, data), files[-1]
    made = b"".join(found.output for found in files)
    data = damaged(rng, made) if made and rng.random() < 0.15 else made
    joined = run(program, ["join"], data, folder)
    yield ["join"], data, model.wide_answer(["join"], data), joined
    if joined.status == 0 and whole and data == made:
        data = plain_image(width, values)
        found = run(program, detect, data, folder)
        yield detect, data, model.Answer(0, joined.output, "", found.taken), found


# ---- runs


def run(program, words, data, folder):
    """What a program answers, by its exit status, its outputs, and the place in its input where it stopped."""
    with tempfile.TemporaryFile(dir=folder) as source:
        source.write(data)
        source.seek(0)
        done = subprocess.run([program, *words], stdin=source, capture_output=True, timeout=SECONDS, check=False)
        taken = os.lseek(source.fileno(), 0, os.SEEK_CUR)
    return model.Answer(done.returncode, done.stdout, done.stderr.decode("utf-8", "replace"), taken)


def detection_runs(rng, programs, folder):
    """One run of maxdetect, and one of maxwide where it is there."""
    words = random_words(rng)
    data = random_file(rng, [0, 1, 1, 1, 2] if words[:1] == ["measure"] else [0, 0, 1, 1, 2])
    yield words, data, model.answer(words, data), run(programs[0], words, data, folder)
    for program in programs[2:]:
        yield words, data, model.wide_answer(words, data), run(program, words, data, folder)


def survey_runs(rng, programs, folder):
    """A session of maxsurvey in memory, or two over one file, and then what the file has."""
    tables = {}
    if rng.random() < 0.8:
        words, data = random_session(rng)
        yield words, data, model.session(words, data, tables), run(programs[1], words, data, folder)
        return
    with tempfile.TemporaryDirectory(dir=folder) as name:
        for words, data in (random_session(rng), random_session(rng), (LISTED, b"")):
            words = ["--file", f"{name}/s.db", *words]
            yield words, data, model.session(words, data, tables), run(programs[1], words, data, folder)


def case(number, seed, programs, folder):
    """The first difference of a case, if there is one."""
    rng = random.Random(f"{seed} {number}")
    chance = rng.random()
    runs = survey_runs if chance < 0.15 else detection_runs
    if chance > 0.9 and len(programs) > 2:
        found = tile_runs(rng, programs[2], folder)
    else:
        found = runs(rng, programs, folder)
    for words, data, wanted, given in found:
        if wanted != given:
            return number, words, data, wanted, given
    return None


def tell(number, words, data, wanted, given):
    with tempfile.NamedTemporaryFile(prefix=f"case{number}-", suffix=".fits", delete=False) as file:
        file.write(data)
    print(f"case {number}: {words} < {file.name}\nthe model: {wanted}\nthe program: {given}")


def main():
    parser = argparse.ArgumentParser(description=__doc__.splitlines()[0])
    parser.add_argument("maxdetect")
    parser.add_argument("maxsurvey")
    parser.add_argument("--maxwide")
    parser.add_argument("--cases", type=int, default=None)
    parser.add_argument("--seconds", type=float, default=60)
    parser.add_argument("--seed", type=int, default=1)
    parser.add_argument("--workers", type=int, default=os.cpu_count())
    options = parser.parse_args()
    named = (options.maxdetect, options.maxsurvey, options.maxwide)
    programs = [os.path.abspath(program) for program in named if program]
    start, done = time.monotonic(), 0
    with tempfile.TemporaryDirectory() as folder, concurrent.futures.ProcessPoolExecutor(options.workers) as pool:
        while done < options.cases if options.cases is not None else time.monotonic() - start < options.seconds:
            count = min(400, options.cases - done) if options.cases is not None else 400
            jobs = [pool.submit(case, number, options.seed, programs, folder) for number in range(done, done + count)]
            different = [found for found in (job.result() for job in jobs) if found]
            done += count
            if different:
                tell(*different[0])
                return 1
    print(f"compare: {done} cases of seed {options.seed} agree with the model")
    return 0


if __name__ == "__main__":
    sys.exit(main())
