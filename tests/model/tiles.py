"""What `maxwide tile` and `maxwide join` answer: a tile by the definitions of its window's image, and the whole from
tiles.
"""
import struct
from typing import Dict, List, NamedTuple, Optional, Tuple, Union

from .headers import BLOCK, MOST_SIDE, WIDE_PIXELS, Fault, Image, fault, find_image
from .programs import Answer, WordAtFault, answer, hdu_bytes, map_of_numbers, read_order, table_bytes, whole_word
from .sources import COLUMNS, Cells, Choice, Node, map_of, nodes_of, residual, row_of, sources_of


class Box(NamedTuple):
    """The columns from `left` up to `right`, without this one, and the rows from `top` up to `bottom`."""

    left: int
    right: int
    top: int
    bottom: int

    def holds(self, other: "Box") -> bool:
        return (
            self.left <= other.left
            and other.right <= self.right
            and self.top <= other.top
            and other.bottom <= self.bottom
        )

    def meets(self, other: "Box") -> bool:
        columns = self.left < other.right and other.left < self.right
        return columns and self.top < other.bottom and other.top < self.bottom

    def pixels(self) -> int:
        return (self.right - self.left) * (self.bottom - self.top)


class Tile(NamedTuple):
    """What is written of a window: boxes of the image, rows as the image has them, and the window's own map."""

    whole: Box
    window: Box
    core: Box
    open: Tuple[Box, ...]
    rows: Tuple[Tuple[int, ...], ...]
    numbers: Tuple[int, ...]


# ---- words

PLACE = "tile --whole W H --window X Y W H --core X Y W H".split()
NUMBER_OF_EMPTY = "--empty-cells"
MOST_NUMBER = 2**29


def read_place(words: List[str]) -> Tuple[Box, Box, Box]:
    """The image, the window and the core that the first words name."""
    numbers: List[int] = []
    for place, form in enumerate(PLACE):
        if place == len(words):
            raise WordAtFault(place + 1)
        if form in ("W", "H", "X", "Y"):
            try:
                numbers.append(whole_word(words[place], int(form in "WH"), MOST_SIDE))
            except ValueError:
                raise WordAtFault(place + 1) from None
            if form == "H" and numbers[-2] * numbers[-1] > WIDE_PIXELS:
                raise WordAtFault(place + 1)
        elif words[place] != form:
            raise WordAtFault(place + 1)
    boxes = [(0, 0, *numbers[:2]), tuple(numbers[2:6]), tuple(numbers[6:])]
    whole, window, core = (Box(left, left + width, top, top + height) for left, top, width, height in boxes)
    return whole, window, core


def read_number(words: List[str]) -> Tuple[Optional[int], int]:
    """The number of the mesh's cells without a value, if the word behind the place gives one, and how many words stand
    in front of the order.
    """
    front = len(PLACE)
    if words[front : front + 1] != [NUMBER_OF_EMPTY]:
        return None, front
    try:
        return whole_word(words[front + 1], -MOST_NUMBER, MOST_NUMBER), front + 2
    except (IndexError, ValueError):
        raise WordAtFault(front + 2) from None


def read_tile_order(words: List[str]) -> Tuple[Tuple[Box, Box, Box], Dict[str, Union[None, int, str]]]:
    """Where the tile lies, and the options of `detect`, with the number of empty cells."""
    whole, window, core = read_place(words)
    empty, front = read_number(words)
    try:
        order = read_order(words[front:], WIDE_PIXELS)
    except WordAtFault as error:
        raise WordAtFault(front + error.word) from None
    if order["command"] != "detect":
        raise WordAtFault(front + 1)
    is_on_mesh = order["mesh"] == 0 or window.left % order["mesh"] == 0 == window.top % order["mesh"]
    if not is_on_mesh or not whole.holds(window) or not window.holds(core):
        raise WordAtFault(PLACE.index("--window") + 1)
    return (whole, window, core), dict(order, empty=empty)


# ---- a tile


def sure_side(flat: bool, mesh: int, side: int, first: int, end: int) -> Tuple[int, int]:
    """Along a side, where the background is the image's: away from edges at which the image goes on, by the whole cells
    that it takes: none but a cell that is cut, or for a smooth background those of two centres, and their neighbours.
    """
    if mesh == 0:
        return first, end
    margin = 0 if flat else 3 * mesh
    begin = first if first == 0 else first + margin // 2
    return begin, end if end == side else max(end // mesh * mesh - (margin + 1) // 2, 0)


def sure_box(image: Image, order, whole: Box, window: Box) -> Optional[Box]:
    """The box of the image in which the window's background is the image's, if that can be known."""
    mesh, flat = order["mesh"], bool(order["flat"])
    if mesh and not flat and order["empty"] is None:
        cells = {
            (pixel % image.width // mesh, pixel // image.width // mesh): False for pixel in range(len(image.values))
        }
        for pixel, value in enumerate(image.values):
            cells[pixel % image.width // mesh, pixel // image.width // mesh] |= value is not None
        if not all(cells.values()):
            return None
    columns = sure_side(flat, mesh, whole.right, window.left, window.right)
    return Box(*columns, *sure_side(flat, mesh, whole.bottom, window.top, window.bottom))


def is_deep(box: Box, sure: Box, whole: Box) -> bool:
    """Whether all pixels of a box and their neighbours lie in the sure one."""
    wide = Box(
        max(box.left - 1, 0), min(box.right + 1, whole.right), max(box.top - 1, 0), min(box.bottom + 1, whole.bottom)
    )
    return sure.holds(wide)


def box_in_image(image: Image, node: Node, window: Box) -> Box:
    columns = [window.left + pixel % image.width for pixel in node.pixels]
    rows = [window.top + pixel // image.width for pixel in node.pixels]
    return Box(min(columns), max(columns) + 1, min(rows), max(rows) + 1)


def open_boxes(image: Image, nodes: List[Node], order, places: Tuple[Box, Box, Box], sure: Optional[Box]) -> List[Box]:
    """The boxes of the components at the threshold that meet the core and may not be known."""
    whole, window, core = places
    if sure is None or not sure.holds(core):
        return [core]
    highest = [
        node
        for node in nodes
        if node.level >= order["threshold"] and (node.parent is None or nodes[node.parent].level < order["threshold"])
    ]
    boxes = [box_in_image(image, node, window) for node in highest]
    return [box for box in boxes if box.meets(core) and not is_deep(box, sure, whole)]


def moved(row: Cells, window: Box) -> Tuple[int, ...]:
    """A row of the window as one of the image."""
    steps = {"XMIN:J": 1, "XMAX:J": 1, "XFIRST:J": 1, "XCEN:J": 1000}
    across = [steps.get(column, 0) * window.left for column in COLUMNS]
    along = [steps.get("X" + column[1:], 0) * window.top if column[0] == "Y" else 0 for column in COLUMNS]
    return tuple(cell + x + y for cell, x, y in zip(row, across, along))


def first_of(row: Tuple[int, ...]) -> Tuple[int, int]:
    """The column and the row of a source's first pixel, from 0."""
    return row[COLUMNS.index("XFIRST:J")] - 1, row[COLUMNS.index("YFIRST:J")] - 1


def tile_of(image: Image, order, places: Tuple[Box, Box, Box]) -> Tile:
    whole, window, core = places
    plane = residual(image, order["mesh"], bool(order["flat"]), order["empty"])
    nodes = nodes_of(plane, order["connect"])
    sources = sources_of(nodes, Choice(order["threshold"], order["min-area"], order["min-flux"], order["contrast"]))
    rows = [moved(row_of(plane, number, source), window) for number, source in enumerate(sources, 1)]
    own = [
        row
        for row in rows
        if core.holds(Box(first_of(row)[0], first_of(row)[0] + 1, first_of(row)[1], first_of(row)[1] + 1))
    ]
    boxes = open_boxes(plane, nodes, order, places, sure_box(image, order, whole, window))
    return Tile(whole, window, core, tuple(boxes), tuple(own), tuple(map_of(plane, sources)))


# ---- its file

BOX_COLUMNS = ["XMIN:J", "XMAX:J", "YMIN:J", "YMAX:J"]


def tile_file(tile: Tile) -> bytes:
    boxes = [tile.whole, tile.window, tile.core, *tile.open]
    cells = [[box.left + 1, box.right, box.top + 1, box.bottom] for box in boxes]
    window = tile.window
    return (
        hdu_bytes([("SIMPLE", True), ("BITPIX", 8), ("NAXIS", 0), ("EXTEND", True)], b"")
        + table_bytes(BOX_COLUMNS, cells, "TILE")
        + map_of_numbers(window.right - window.left, window.bottom - window.top, list(tile.numbers))
        + table_bytes(COLUMNS, [list(row) for row in tile.rows])
    )


def answer_tile(words: List[str], data: bytes) -> Answer:
    """What `maxwide` answers to words that begin with `tile`."""
    try:
        places, order = read_tile_order(words)
        image, end = find_image(data, order["hdu"], WIDE_PIXELS)
        window = places[1]
        if (image.width, len(image.values)) != (window.right - window.left, window.pixels()):
            raise fault(19, end)
    except WordAtFault as error:
        return Answer(1, b"", f"usage: word {error.word}\n", 0)
    except Fault as error:
        return Answer(2, b"", f"refused: {error.number} {error.text}\n", error.taken)
    return Answer(0, tile_file(tile_of(image, order, places)), "", end)


# ---- tiles that are joined


class NoTile(Exception):
    """The bytes don't begin with a tile's file."""


def read_cards(data: bytes, start: int) -> Dict[str, str]:
    """The values of a header's cards as they stand; none where there is no END."""
    cards = {}
    for place in range(start, len(data) - 79, 80):
        text = data[place : place + 80].decode("latin-1")
        if text.rstrip() == "END":
            return cards
        cards[text[:8].rstrip()] = text[10:].strip()
    raise NoTile


def count_of(cards: Dict[str, str], keyword: str) -> int:
    text = cards.get(keyword, "")
    if not text.isdigit():
        raise NoTile
    return int(text)


def to_block(size: int) -> int:
    return -(-size // BLOCK) * BLOCK


def read_cells(data: bytes, start: int, form: str, columns: int) -> Tuple[List[Tuple[int, ...]], int]:
    """The rows of a table, whose header has so many columns, and the place behind it."""
    count = count_of(read_cards(data, start), "NAXIS2")
    head = start + to_block(80 * (10 + 2 * columns))
    end = head + struct.calcsize(form) * count
    if end > len(data):
        raise NoTile
    return list(struct.iter_unpack(form, data[head:end])), start + to_block(80 * (10 + 2 * columns)) + to_block(
        end - head
    )


def read_tile(data: bytes, start: int) -> Tuple[Tile, int]:
    """The tile whose file begins at a place, and the place behind it: numbers are taken from where they have to stand,
    and then the file that is made of them has to be just these bytes.
    """
    cells, place = read_cells(data, start + BLOCK, ">4i", 4)
    boxes = [Box(left - 1, right, top - 1, bottom) for left, right, top, bottom in cells]
    if len(boxes) < 3 or not all(is_box(box) for box in boxes[:3]) or not all(is_extent(box) for box in boxes):
        raise NoTile
    whole, window, core = boxes[:3]
    end = place + BLOCK + 4 * window.pixels()
    if end > len(data) or (whole.left, whole.top) != (0, 0) or not whole.holds(window) or not whole.holds(core):
        raise NoTile
    numbers = struct.unpack(f">{window.pixels()}i", data[place + BLOCK : end])
    rows, behind = read_cells(data, place + BLOCK + to_block(4 * window.pixels()), ROW, len(COLUMNS))
    tile = Tile(whole, window, core, tuple(boxes[3:]), tuple(rows), numbers)
    if min(numbers) < 0 or tile_file(tile) != data[start:behind]:
        raise NoTile
    return tile, behind


def is_extent(box: Box) -> bool:
    return all(0 <= end <= MOST_SIDE for end in box)


def is_box(box: Box) -> bool:
    return is_extent(box) and box.left < box.right and box.top < box.bottom and box.pixels() <= WIDE_PIXELS


ROW = ">" + "".join({"J": "i", "K": "q"}[column[-1]] for column in COLUMNS)


def read_tiles(data: bytes) -> List[Tile]:
    tiles, place = [], 0
    while place < len(data) or not tiles:
        tile, place = read_tile(data, place)
        tiles.append(tile)
    return tiles


def fits(tile: Tile, whole: Box) -> bool:
    """Whether a tile can be one of an image."""
    width, height = whole.right, whole.bottom
    return tile.whole == whole and all(
        1 <= row[0] <= len(tile.numbers) and 0 <= first_of(row)[0] < width and 0 <= first_of(row)[1] < height
        for row in tile.rows
    )


def pixels_of(box: Box, width: int) -> List[int]:
    return [y * width + x for y in range(box.top, box.bottom) for x in range(box.left, box.right)]


def join_fault(tiles: List[Tile], whole: Box) -> Optional[Tuple[int, str]]:
    """The first thing that is amiss, in the order of the numbers of faults."""
    for kind, is_amiss in ((31, lambda tile: not fits(tile, whole)), (32, lambda tile: bool(tile.open))):
        for number, tile in enumerate(tiles):
            if is_amiss(tile):
                return kind, f" tile {number}"
    seen = set()
    for number, tile in enumerate(tiles):
        core = set(pixels_of(tile.core, whole.right))
        if core & seen:
            return 33, f" tile {number}"
        seen |= core
    gaps = sorted(set(range(whole.pixels())) - seen)
    if gaps:
        return 34, f" pixel {gaps[0]}"
    firsts = sorted(first_of(row)[::-1] for tile in tiles for row in tile.rows)
    same = [one for one, other in zip(firsts, firsts[1:]) if one == other]
    return (35, f" pixel {same[0][0] * whole.right + same[0][1]}") if same else None


def join(tiles: List[Tile], whole: Box) -> bytes:
    """What is written of the whole: rows in the order of their first pixels, and for each pixel the number of the row
    that the first tile to have one there means.
    """
    rows = sorted((row for tile in tiles for row in tile.rows), key=lambda row: first_of(row)[::-1])
    number_of = {first_of(row): number for number, row in enumerate(rows, 1)}
    numbers = [0] * whole.pixels()
    for tile in tiles:
        meant = {row[0]: number_of[first_of(row)] for row in reversed(tile.rows)}
        for pixel, own in zip(pixels_of(tile.window, whole.right), tile.numbers):
            numbers[pixel] = numbers[pixel] or meant.get(own, 0)
    empty = hdu_bytes([("SIMPLE", True), ("BITPIX", 8), ("NAXIS", 0), ("EXTEND", True)], b"")
    table = table_bytes(COLUMNS, [[number, *row[1:]] for number, row in enumerate(rows, 1)])
    return empty + map_of_numbers(whole.right, whole.bottom, numbers) + table


def answer_join(words: List[str], data: bytes) -> Answer:
    """What `maxwide` answers to words that begin with `join`."""
    if words != ["join"]:
        return Answer(1, b"", "usage: word 2\n", 0)
    try:
        tiles = read_tiles(data)
    except NoTile:
        return Answer(2, b"", "refused: 30 NotTiles\n", len(data))
    amiss = join_fault(tiles, tiles[0].whole)
    if amiss:
        return Answer(2, b"", f"refused: {amiss[0]} {NAMES[amiss[0]]}{amiss[1]}\n", len(data))
    return Answer(0, join(tiles, tiles[0].whole), "", len(data))


NAMES = {31: "NotOfImage", 32: "OpenComponent", 33: "CoresOverlap", 34: "CoreGap", 35: "SamePixel"}


def wide_answer(words: List[str], data: bytes) -> Answer:
    """What `maxwide` answers to any words: those that don't begin with a word of tiles are maxdetect's."""
    if words[:1] == ["tile"]:
        return answer_tile(words, data)
    return answer_join(words, data) if words[:1] == ["join"] else answer(words, data, WIDE_PIXELS)
