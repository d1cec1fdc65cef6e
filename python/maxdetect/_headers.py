"""The headers of a FITS file by their raw cards, looked at before astropy sees them.

astropy believes what a header says: it lists a million axes one by one, goes back in the file for a side below 0 and
comes round for ever, and takes memory for pixels that the file can't have. So whatever says how large an HDU is is
looked at here, and only then given to astropy.
"""
import bz2
import contextlib
import gzip
import math
import os
import re
import zipfile
from typing import IO, Dict, Generator, Iterator, List, Optional, Tuple, Union

from astropy.io import fits

from ._errors import Mistake

__all__ = ["check_sums", "walked"]

CARD, BLOCK = 80, 2880
# As many blocks as the program reads of a header: 36,000 cards.
MOST_BLOCKS = 1000
# The standard's bound for axes and for columns.
MOST = 999
BITS = (8, 16, 32, 64, -32, -64)
# What astropy reads of a header when it opens an HDU.
READ = re.compile(
    r"SIMPLE|XTENSION|BITPIX|NAXIS\d*|[PG]COUNT|GROUPS|TFIELDS|THEAP|EXTNAME|EXTVER|BSCALE|BZERO|BLANK"
    r"|Z(IMAGE|BITPIX|NAXIS\d*|TILE\d+|CMPTYPE|BLANK|DITHER0)"
)
# A byte of a compressed tile stands for no more pixels than this: PLIO says 4095 in two bytes, deflate 1032 in one.
# HCOMPRESS has no such bound.
MOST_PIXELS = 2048
# An image is seldom compressed to less than one over this.
PLAUSIBLE = 100

Cards = Dict[str, object]
# A file that is open, as it stands or decompressed.
Opened = Union[IO[bytes], gzip.GzipFile, bz2.BZ2File]


def walked(path: str) -> Generator[int, None, None]:
    """The numbers of a file's HDUs, each when its header has been looked at. Of a compressed file no more is read
    than what stands before the header.

    Raises Mistake for a header that can't be believed, and what the system or a decompressor raises.
    """
    with _opened(path) as (file, size):
        number, start = 0, 0
        while True:
            file.seek(start)
            header, start = _header(file, path, number, start)
            if header is None:
                return
            try:
                cards = _cards(header)
                length = _data_bytes(cards, number)
                _check_tiles(cards)
                if not _holds(path, file, size, start, length):
                    raise ValueError(f"the file ends within its data, {length} bytes by its header")
            except ValueError as error:
                raise Mistake(f"{path}: HDU {number}: {error}") from None
            yield number
            number, start = number + 1, start + -(-length // BLOCK) * BLOCK


def _holds(path: str, file: Opened, size: Optional[int], start: int, length: int) -> bool:
    """Whether a file has so many bytes from here on. A compressed one is read for it where they are many for it."""
    if size is not None:
        return start + length <= size
    if length <= PLAUSIBLE * os.path.getsize(path):
        return True
    file.seek(start + length - 1)
    return len(file.read(1)) == 1


def check_sums(path: str) -> None:
    """Reads a compressed file to its end, where its checksum stands; astropy reads no further than an image. Raises
    what a decompressor raises.
    """
    with _opened(path) as (file, size):
        while size is None and file.read(2**20):
            pass


@contextlib.contextmanager
def _opened(path: str) -> Iterator[Tuple[Opened, Optional[int]]]:
    """A file, decompressed as astropy would do it, and its size where it isn't compressed."""
    with contextlib.ExitStack() as stack:
        file = stack.enter_context(open(path, "rb"))
        magic = file.read(4)
        if magic[:2] == b"\x1f\x8b":
            yield stack.enter_context(gzip.open(path)), None
        elif magic[:3] == b"BZh":
            yield stack.enter_context(bz2.open(path)), None
        elif magic == b"PK\x03\x04":
            archive = stack.enter_context(zipfile.ZipFile(path))
            yield stack.enter_context(archive.open(archive.namelist()[0])), None
        else:
            yield file, os.fstat(file.fileno()).st_size


def _header(file: Opened, path: str, number: int, start: int) -> Tuple[Optional[List[bytes]], int]:
    """The cards of the header that begins here, and where its data begin; None where the file has no further HDU."""
    header, first = [], b"SIMPLE  =" if number == 0 else b"XTENSION="
    for count in range(1, MOST_BLOCKS + 1):
        block = file.read(BLOCK)
        if count == 1 and not block.startswith(first):
            if number == 0:
                raise Mistake(f"{path}: not a FITS file: it doesn't begin with SIMPLE")
            # What stands behind the last HDU is nobody's.
            return None, start
        if len(block) < BLOCK:
            raise Mistake(f"{path}: HDU {number}: the file ends within its header")
        cards = [block[at : at + CARD] for at in range(0, BLOCK, CARD)]
        ends = [place for place, card in enumerate(cards) if card[:8].rstrip() == b"END"]
        header += cards[: ends[0]] if ends else cards
        if ends:
            return header, start + count * BLOCK
    raise Mistake(f"{path}: HDU {number}: {MOST_BLOCKS * BLOCK // CARD} cards without END")


def _cards(header: List[bytes]) -> Cards:
    """The values of those cards that astropy reads at once. Raises ValueError for one that can't be read, or that
    stands twice with two values: of such astropy takes now the first and now the last.
    """
    found: Cards = {}
    for card in header:
        keyword = card[:8].decode("latin-1").rstrip().upper()
        if not READ.fullmatch(keyword):
            continue
        try:
            value = fits.Card.fromstring(card).value
        except (fits.VerifyError, ValueError):
            text = " ".join(card[9:].decode("latin-1").split())
            raise ValueError(f"{keyword} can't be read: {text}") from None
        # fpack leaves the image's own name beside the table's.
        if found.setdefault(keyword, value) != value and keyword not in ("EXTNAME", "EXTVER"):
            raise ValueError(f"{keyword} stands twice, with {found[keyword]} and {value}")
    return found


def _whole(cards: Cards, keyword: str, least: int, most: Optional[int] = None, default: Optional[int] = None) -> int:
    """A card with a whole number. Raises ValueError where it has none, or one out of its range."""
    value = cards.get(keyword, default)
    if type(value) is not int or value < least or (most is not None and value > most):
        wanted = f"a whole number from {least} {'on' if most is None else f'to {most}'}"
        raise ValueError(f"{keyword} isn't {wanted}" + ("" if value is None else f": {value}"))
    return value


def _bits(cards: Cards, keyword: str) -> int:
    """BITPIX, or ZBITPIX."""
    value = cards.get(keyword)
    if type(value) is not int or value not in BITS:
        raise ValueError(f"{keyword} is none of {', '.join(str(bits) for bits in BITS)}: {value}")
    return value


def _sides(cards: Cards, keyword: str) -> List[int]:
    """The sides of NAXIS or ZNAXIS, the fastest first."""
    return [_whole(cards, f"{keyword}{axis}", 0) for axis in range(1, _whole(cards, keyword, 0, MOST) + 1)]


def _data_bytes(cards: Cards, number: int) -> int:
    """How many bytes of data belong to a header, without what fills the last block. Raises ValueError."""
    bits, sides = _bits(cards, "BITPIX"), _sides(cards, "NAXIS")
    behind, groups = _whole(cards, "PCOUNT", 0, default=0), _whole(cards, "GCOUNT", 1, default=1)
    if cards.get("XTENSION") in ("BINTABLE", "TABLE"):
        _whole(cards, "TFIELDS", 0, MOST)
    if not sides:
        return 0
    if number == 0 and cards.get("GROUPS") is True and sides[0] == 0:
        sides = sides[1:]
    return abs(bits) // 8 * groups * (behind + math.prod(sides))


def _check_tiles(cards: Cards) -> None:
    """Looks at the size of a compressed image: its table has a row for each tile, and bytes for the pixels. Raises
    ValueError.
    """
    if cards.get("ZIMAGE") is not True:
        return
    _bits(cards, "ZBITPIX")
    sides = _sides(cards, "ZNAXIS")
    # astropy divides by those that aren't there.
    tiles = [_whole(cards, f"ZTILE{axis}", 1) for axis in range(1, len(sides) + 1)]
    count, rows = math.prod(-(-side // tile) for side, tile in zip(sides, tiles)), _whole(cards, "NAXIS2", 0)
    if rows < count:
        raise ValueError(f"a compressed image of {count} tiles, and {rows} rows for them")
    held = _whole(cards, "NAXIS1", 0) * rows + _whole(cards, "PCOUNT", 0)
    if cards.get("ZCMPTYPE") != "HCOMPRESS_1" and math.prod(sides) > MOST_PIXELS * held:
        raise ValueError(f"a compressed image of {math.prod(sides)} pixels in {held} bytes")
