"""Writes a star field as a FITS image of 16-bit integers: noise of the sky, stars of many brightnesses, and some blank pixels.

usage: python3 star_field.py WIDTH HEIGHT [SEED [BANDS]] > image.fits

With 2 for BANDS the same stars in a redder band follow as an image extension, RED, with a sky and blank pixels of its own; the first band stays as
it is. The same numbers always give the same bytes. Only Python's own library is needed.
"""
import array
import math
import random
import sys

BLANK = -32768
ZERO = 32768
SKY = 1000


def card(keyword, value):
    """A card in fixed format."""
    return f"{keyword:<8}= {value:>20}".ljust(80)


def text_card(keyword, text):
    return f"{keyword:<8}= '{text:<8}'".ljust(80)


def header(width, height, name=None):
    """The header of the primary image, or of an image extension with this name."""
    first = [card("SIMPLE", "T")] if name is None else [text_card("XTENSION", "IMAGE")]
    shape = [card("BITPIX", 16), card("NAXIS", 2), card("NAXIS1", width), card("NAXIS2", height)]
    alone = [] if name is None else [card("PCOUNT", 0), card("GCOUNT", 1)]
    values = [card("BSCALE", 1), card("BZERO", ZERO), card("BLANK", BLANK)]
    named = [] if name is None else [text_card("EXTNAME", name)]
    text = "".join(first + shape + alone + values + named + ["END".ljust(80)]).encode("ascii")
    return text + b" " * (-len(text) % 2880)


def sky(width, height, rng):
    """The sum of two random bytes for each pixel, above the level of the sky."""
    first, second = rng.randbytes(width * height), rng.randbytes(width * height)
    return array.array("l", (SKY + (a + b) // 8 for a, b in zip(first, second)))


def random_star(width, height, rng):
    """A round star's column, row, peak and sigma; its brightness follows a steep power law, as stars' do."""
    column, row = rng.uniform(0, width), rng.uniform(0, height)
    peak = min(50000.0, 40.0 / rng.random() ** 0.8)
    return column, row, peak, rng.uniform(1.0, 2.2)


def add_star(values, width, height, star):
    column, row, peak, sigma = star
    reach = int(sigma * math.sqrt(2 * math.log(max(peak, 2.0)))) + 1
    for y in range(max(0, int(row) - reach), min(height, int(row) + reach + 1)):
        for x in range(max(0, int(column) - reach), min(width, int(column) + reach + 1)):
            distance = (x - column) ** 2 + (y - row) ** 2
            values[y * width + x] += int(peak * math.exp(-distance / (2 * sigma * sigma)))


def stored(values, rng):
    """The stored numbers: the values less BZERO, and BLANK at one pixel in 5,000."""
    numbers = array.array("h", (min(value, 65535) - ZERO for value in values))
    for _ in range(len(numbers) // 5000):
        numbers[rng.randrange(len(numbers))] = BLANK
    if sys.byteorder == "little":
        numbers.byteswap()
    return numbers.tobytes()


def data(width, height, ground, stars, rng):
    """The data of one band: its sky with its stars, and its blank pixels."""
    for star in stars:
        add_star(ground, width, height, star)
    numbers = stored(ground, rng)
    return numbers + b"\0" * (-len(numbers) % 2880)


def main():
    width, height = int(sys.argv[1]), int(sys.argv[2])
    seed = int(sys.argv[3]) if len(sys.argv) > 3 else 1
    write, rng = sys.stdout.buffer.write, random.Random(seed)
    ground = sky(width, height, rng)
    stars = [random_star(width, height, rng) for _ in range(width * height // 400)]
    write(header(width, height) + data(width, height, ground, stars, rng))
    if len(sys.argv) > 4 and sys.argv[4] == "2":
        rng = random.Random(f"{seed} in red")
        redder = [(column, row, peak * rng.uniform(0.5, 2.0), sigma) for column, row, peak, sigma in stars]
        write(header(width, height, "RED") + data(width, height, sky(width, height, rng), redder, rng))


main()
