"""Cards, headers, HDUs and the pixels of images, by the FITS Standard 4.0 as docs/FORMATS.md has it; and the first
fault of an input.
"""
import dataclasses
import math
import re
import struct
from fractions import Fraction
from typing import Dict, List, NamedTuple, Optional, Tuple


BLOCK = 2880
CARD = 80
MOST_CARDS = 36_000
MOST_DATA = 2**40
MOST_PIXELS = 2**24
# What maxwide takes.
WIDE_PIXELS = 2**31 - 1
MOST_SIDE = 65_535
INTEGERS = range(-(2**63), 2**63)

Value = Optional[int]


# ---- cards


class Unreadable:
    """The value of a card that no reader accepts."""


class Logical(NamedTuple):
    is_true: bool


class Text(NamedTuple):
    text: bytes


class Number(NamedTuple):
    """An integer, or a real by its exact number, if that isn't too far from 1 to be written down."""

    number: Optional[Fraction]
    is_integer: bool
    is_whole: bool


def card_value(card: bytes):
    """The value of a card, or None where it has none."""
    field = card[10:].lstrip(b" ")
    if card[8:10] != b"= " or not field or field.startswith(b"/"):
        return None
    string = re.fullmatch(rb"'((?:[^']|'')*)' *(?:/.*)?", field, re.S)
    if string:
        return Text(string[1].replace(b"''", b"'").rstrip(b" "))
    token = re.fullmatch(rb"([^ /]+) *(?:/.*)?", field, re.S)
    return token_value(token[1]) if token and not field.startswith(b"'") else Unreadable()


def token_value(token: bytes):
    """The value of a token: a logical, an integer, a real, or none that is accepted."""
    if token in (b"T", b"F"):
        return Logical(token == b"T")
    if re.fullmatch(rb"[+-]?[0-9]+", token):
        return Number(Fraction(int(token)), True, True)
    real = re.fullmatch(rb"([+-]?)([0-9]*)(?:\.([0-9]*))?(?:[EDed]([+-]?[0-9]+))?", token)
    if not real or not (real[2] or real[3]):
        return Unreadable()
    digits = int((real[2] + (real[3] or b"")) or b"0")
    exponent = int(real[4] or b"0") - len(real[3] or b"")
    if digits == 0:
        return Number(Fraction(0), False, True)
    if abs(exponent) > 1000:
        return Number(None, False, exponent > 0)
    number = Fraction(digits) * Fraction(10) ** exponent * (-1 if real[1] == b"-" else 1)
    return Number(number, False, number.denominator == 1)


def integer_of(card: bytes) -> Optional[int]:
    """The card's integer, if it has one that fits 64 bits."""
    value = card_value(card)
    if isinstance(value, Number) and value.is_integer and int(value.number) in INTEGERS:
        return int(value.number)
    return None


def whole_of(card: bytes) -> Optional[int]:
    """The card's whole number, if it has one that fits 64 bits; a real may be whole."""
    value = card_value(card)
    if isinstance(value, Number) and value.is_whole and value.number is not None and int(value.number) in INTEGERS:
        return int(value.number)
    return None


# ---- headers and HDUs


@dataclasses.dataclass
class Fault(Exception):
    """The first fault of an input: its number, what stands behind that on the notes, and how many bytes were taken."""

    number: int
    text: str
    taken: int


NAMES = {
    1: "NotFits",
    2: "TruncatedHeader",
    3: "BadKeyword",
    4: "HeaderTooLong",
    5: "Groups",
    6: "DataTooLong",
    7: "NoSuchHdu",
    8: "TruncatedSkip",
}
NAMES.update(
    {
        10: "NotImage",
        11: "NoImage",
        12: "ImageTooLarge",
        13: "Bitpix",
        14: "Bscale",
        15: "Bzero",
        16: "Blank",
        17: "TruncatedData",
    }
)
NAMES.update(
    {
        18: "PixelRange",
        19: "ShapeDiffers",
        20: "NotCatalogue",
        21: "TooManyRows",
        22: "TruncatedTable",
        23: "RowNumber",
        24: "NoSuchField",
    }
)


def fault(number: int, taken: int, more: str = "") -> Fault:
    return Fault(number, f"{NAMES[number]}{more}", taken)


class Hdu(NamedTuple):
    """A header's meaning, and the place of the first byte behind it. A number that isn't whole is None; `has_blank`
    tells whether there is a BLANK.
    """

    kind: str
    bitpix: int
    axes: List[int]
    size: int
    bscale: Optional[int]
    bzero: Optional[int]
    blank: Optional[int]
    has_blank: bool
    head: int


def mandatory(place: int, axes: int, is_primary: bool):
    """The keyword of the card in a mandatory place, and the test of its value."""
    if place == 1:
        first = (b"SIMPLE", lambda card: card_value(card) == Logical(True))
        return first if is_primary else (b"XTENSION", lambda card: isinstance(card_value(card), Text))
    if place == 2:
        return b"BITPIX", lambda card: integer_of(card) in (8, 16, 32, 64, -32, -64)
    if place == 3:
        return b"NAXIS", lambda card: integer_of(card) in range(1000)
    return b"NAXIS%d" % (place - 3), lambda card: (integer_of(card) or 0) >= 0 and integer_of(card) is not None


def header(data: bytes, start: int, number: int) -> Hdu:
    """The header that begins at a place, of the HDU with this number."""
    first = b"SIMPLE  " if number == 0 else b"XTENSION"
    if data[start : start + 8] != first:
        raise fault(1 if number == 0 else 7, min(len(data), start + CARD))
    cards: List[bytes] = []
    axes, counted = 0, set()
    while True:
        place, at = len(cards) + 1, start + CARD * len(cards)
        card = data[at : at + CARD]
        if len(card) < CARD:
            raise fault(2, len(data))
        is_good, is_end = True, card == b"END".ljust(CARD)
        if place <= 3 + axes:
            keyword, accepts = mandatory(place, axes, number == 0)
            is_good = card[:8] == keyword.ljust(8) and card_value(card) is not None and accepts(card)
        elif is_end:
            break
        elif (
            number > 0
            and card[:8] in (b"PCOUNT  ", b"GCOUNT  ")
            and card_value(card) is not None
            and card[:8] not in counted
        ):
            counted.add(card[:8])
            is_good = integer_of(card) is not None and integer_of(card) >= 0
        if not is_good:
            raise fault(3, at + CARD, f" hdu {number} card {place}")
        if place == MOST_CARDS:
            raise fault(4, at + CARD)
        if place == 3:
            axes = integer_of(card)
        cards.append(card)
    head = start + math.ceil((len(cards) + 1) * CARD / BLOCK) * BLOCK
    if len(data) < head:
        raise fault(2, len(data))
    return meaning(cards, axes, number, head)


def meaning(cards: List[bytes], naxis: int, number: int, head: int) -> Hdu:
    """What the cards of a whole header say; faults 5 and 6 are looked for."""
    counts: Dict[bytes, bytes] = {}
    for card in cards[3 + naxis :]:
        if card_value(card) is not None:
            counts.setdefault(card[:8].rstrip(b" "), card)
    axes = [integer_of(card) for card in cards[3 : 3 + naxis]]
    bitpix, product = integer_of(cards[1]), math.prod(axes) if axes else 0
    if (
        number == 0
        and naxis
        and axes[0] == 0
        and b"GROUPS" in counts
        and card_value(counts[b"GROUPS"]) == Logical(True)
    ):
        raise fault(5, head)
    size, kind = abs(bitpix) // 8 * product, "primary"
    if number > 0:
        pcount, gcount = (
            integer_of(counts[name]) if name in counts else default
            for name, default in ((b"PCOUNT", 0), (b"GCOUNT", 1))
        )
        size = abs(bitpix) // 8 * gcount * (pcount + product) if naxis else 0
        kind = "image" if card_value(cards[0]) == Text(b"IMAGE") and (pcount, gcount) == (0, 1) else "other"
    if size > MOST_DATA:
        raise fault(6, head)
    bscale, bzero = (
        whole_of(counts[name]) if name in counts else default for name, default in ((b"BSCALE", 1), (b"BZERO", 0))
    )
    blank = counts.get(b"BLANK")
    return Hdu(kind, bitpix, axes, size, bscale, bzero, whole_of(blank) if blank else None, blank is not None, head)


def find_hdu(data: bytes, number: int, start: int = 0) -> Hdu:
    """The HDU with this number, counted from the one that begins at `start`."""
    for each in range(number + 1):
        hdu = header(data, start, each)
        if each < number:
            if len(data) < hdu.head + hdu.size:
                raise fault(8, len(data))
            start = hdu.head + math.ceil(hdu.size / BLOCK) * BLOCK
            if len(data) < start:
                raise fault(7, len(data))
    return hdu


# ---- images


class Image(NamedTuple):
    """An image: its width, and the value of each pixel row by row, None where it is undefined."""

    width: int
    values: List[Value]

    @property
    def height(self) -> int:
        return len(self.values) // self.width


def check_image(hdu: Hdu, most: int) -> None:
    """Faults 10 to 16, where an image has at most so many pixels."""
    width, height = (hdu.axes + [0, 0])[:2]
    tests = {
        10: hdu.kind == "other",
        11: len(hdu.axes) < 2 or 0 in (width, height) or any(axis != 1 for axis in hdu.axes[2:]),
        12: max(width, height) > MOST_SIDE or width * height > most,
        13: hdu.bitpix not in (8, 16, 32, 64),
        14: hdu.bscale != 1,
        15: hdu.bzero is None or abs(hdu.bzero) > 2**32,
        16: hdu.has_blank and hdu.blank is None,
    }
    for number, is_so in tests.items():
        if is_so:
            raise fault(number, hdu.head)


def read_image(data: bytes, hdu: Hdu) -> Tuple[Image, int]:
    """The image of an HDU that was checked, and the place behind its last data byte; faults 17 and 18."""
    width, height = hdu.axes[:2]
    end = hdu.head + width * height * hdu.bitpix // 8
    if len(data) < end:
        raise fault(17, len(data))
    form = {8: "B", 16: "h", 32: "i", 64: "q"}[hdu.bitpix]
    stored = struct.unpack(f">{width * height}{form}", data[hdu.head : end])
    values = [None if hdu.has_blank and number == hdu.blank else hdu.bzero + number for number in stored]
    bound = 2**36 if width * height <= MOST_PIXELS else 2**29
    for pixel, value in enumerate(values):
        if value is not None and abs(value) > bound:
            raise fault(18, end, f" pixel {pixel} stored {stored[pixel]}")
    return Image(width, values), end


def find_image(data: bytes, number: int, most: int) -> Tuple[Image, int]:
    hdu = find_hdu(data, number)
    check_image(hdu, most)
    return read_image(data, hdu)


def find_two(data: bytes, detection: int, values: int, most: int) -> Tuple[Image, Image, int]:
    """The two images of `measure`, and the place behind the last data byte of the later one."""
    earlier, _ = find_image(data, min(detection, values), most)
    hdu = find_hdu(data, max(detection, values))
    check_image(hdu, most)
    if [earlier.width, earlier.height] != hdu.axes[:2]:
        raise fault(19, hdu.head)
    later, end = read_image(data, hdu)
    return (earlier, later, end) if detection < values else (later, earlier, end)
