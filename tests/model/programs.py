"""What the two programs answer to words and bytes: status, output, notes, and how many bytes are taken.
"""
import dataclasses
import math
import re
import struct
from typing import Dict, List, NamedTuple, Optional, Tuple, Union

from .headers import BLOCK, CARD, MOST_PIXELS, MOST_SIDE, Fault, Image, fault, find_hdu, find_image, find_two
from .sources import (
    COLUMNS,
    MEASURES,
    Cells,
    Choice,
    Criterion,
    Node,
    filtered,
    map_of,
    measure_of,
    nodes_of,
    representative,
    residual,
    row_of,
    sources_of,
)


# ---- what is written


def card(keyword: str, value: Union[bool, int, str]) -> bytes:
    """A card in fixed format."""
    if isinstance(value, str):
        return f"{keyword:<8}= '{value:<8}'".ljust(CARD).encode("ascii")
    text = {True: "T", False: "F"}[value] if isinstance(value, bool) else str(value)
    return f"{keyword:<8}= {text:>20}".ljust(CARD).encode("ascii")


def to_block(data: bytes, filling: bytes = b"\0") -> bytes:
    return data + filling * (-len(data) % BLOCK)


def hdu_bytes(cards: List[Tuple[str, Union[bool, int, str]]], data: bytes) -> bytes:
    text = b"".join(card(keyword, value) for keyword, value in cards) + b"END".ljust(CARD)
    return to_block(text, b" ") + to_block(data)


def plane_bytes(image: Image) -> bytes:
    cards = [
        ("SIMPLE", True),
        ("BITPIX", 64),
        ("NAXIS", 2),
        ("NAXIS1", image.width),
        ("NAXIS2", image.height),
        ("BLANK", -(2**63)),
    ]
    return hdu_bytes(
        cards, b"".join(struct.pack(">q", -(2**63) if value is None else value) for value in image.values)
    )


def map_bytes(image: Image, numbers: List[int]) -> bytes:
    return map_of_numbers(image.width, image.height, numbers)


def map_of_numbers(width: int, height: int, numbers: List[int]) -> bytes:
    cards = [("XTENSION", "IMAGE"), ("BITPIX", 32), ("NAXIS", 2), ("NAXIS1", width), ("NAXIS2", height)]
    cards += [("PCOUNT", 0), ("GCOUNT", 1), ("EXTNAME", "SEGMENT")]
    return hdu_bytes(cards, struct.pack(f">{len(numbers)}i", *numbers))


def table_bytes(columns: List[str], rows: List[Cells], table: str = "SOURCES") -> bytes:
    names, forms = zip(*(column.split(":") for column in columns))
    form = ">" + "".join({"J": "i", "K": "q"}[each] for each in forms)
    cards = [
        ("XTENSION", "BINTABLE"),
        ("BITPIX", 8),
        ("NAXIS", 2),
        ("NAXIS1", struct.calcsize(form)),
        ("NAXIS2", len(rows)),
    ]
    cards += [("PCOUNT", 0), ("GCOUNT", 1), ("TFIELDS", len(columns))]
    for number, (name, each) in enumerate(zip(names, forms), 1):
        cards += [(f"TTYPE{number}", name), (f"TFORM{number}", each)]
    return hdu_bytes([*cards, ("EXTNAME", table)], b"".join(struct.pack(form, *row) for row in rows))


def detection_bytes(image: Image, sources: List[Node], columns: List[str], rows: List[Cells]) -> bytes:
    empty = hdu_bytes([("SIMPLE", True), ("BITPIX", 8), ("NAXIS", 0), ("EXTEND", True)], b"")
    return empty + map_bytes(image, map_of(image, sources)) + table_bytes(columns, rows)


# ---- command words


@dataclasses.dataclass
class WordAtFault(Exception):
    word: int


def whole_word(word: str, least: int, greatest: int) -> int:
    """The whole number that a word is, in a range; else ValueError."""
    if not re.fullmatch(r"-?[0-9]{1,19}", word) or not least <= int(word) <= greatest:
        raise ValueError(word)
    return int(word)


RANGES = {
    "hdu": (0, 65535),
    "strips": (1, 65535),
    "workers": (1, 64),
    "mesh": (0, 65535),
    "flat": (0, 1),
    "values": (0, 65535),
}
RANGES.update({"min-flux": (0, 2**62), "min-fill": (0, 1000)})
RANGES.update(
    {
        "threshold": (-(2**37), 2**37),
        "contrast": (0, 1000),
        "seed": (0, 2**32 - 1),
        "width": (1, MOST_SIDE),
        "height": (1, MOST_SIDE),
    }
)
COMMON = {"connect": 4, "strips": 1, "workers": 1, "mesh": 0, "flat": 0}
CHOICE = {"threshold": None, "min-area": 1, "min-flux": 0, "contrast": 5}
OPTIONS = {
    "tree": {"hdu": 0},
    "filter": {"hdu": 0, "rule": None, "min-area": 0, "max-area": MOST_PIXELS, "min-flux": 0, "min-fill": 0},
    "detect": {"hdu": 0, **CHOICE},
    "measure": {"hdu": 0, "values": None, **CHOICE},
    "trial": {"seed": None, "width": None, "height": None},
}


def option_value(name: str, word: str, most: int) -> Union[int, str]:
    """What a word means, where an image has at most so many pixels."""
    if name == "rule":
        if word not in ("min", "max", "direct", "subtractive"):
            raise ValueError(word)
        return word
    if name == "connect":
        value = whole_word(word, 4, 8)
        if value not in (4, 8):
            raise ValueError(word)
        return value
    return whole_word(word, *((0, most) if name.endswith("-area") else RANGES[name]))


def read_order(words: List[str], most: int) -> Dict[str, Union[None, int, str]]:
    """The options of the command that the words give, or the first word at fault."""
    if not words or words[0] not in OPTIONS:
        raise WordAtFault(1)
    order, given = {**COMMON, **OPTIONS[words[0]]}, set()
    if words[0] == "filter":
        order["max-area"] = most
    for place in range(1, len(words), 2):
        name = words[place][2:]
        if not words[place].startswith("--") or name not in order or name in given:
            raise WordAtFault(place + 1)
        if place + 1 == len(words):
            raise WordAtFault(len(words) + 1)
        try:
            order[name] = option_value(name, words[place + 1], most)
        except ValueError:
            raise WordAtFault(place + 2) from None
        given.add(name)
    is_too_large = words[0] == "trial" and None not in order.values() and order["width"] * order["height"] > MOST_PIXELS
    if None in order.values() or is_too_large or words[0] == "measure" and order["hdu"] == order["values"]:
        raise WordAtFault(len(words) + 1)
    return {"command": words[0], **order}


# ---- answers


class Answer(NamedTuple):
    """What a run gives: its exit status, its output, its line of notes, and how many bytes of its input were taken."""

    status: int
    output: bytes
    notes: str
    taken: int


def trial_line(order) -> bytes:
    state, values = order["seed"], []
    for _ in range(order["width"] * order["height"]):
        state = (1664525 * state + 1013904223) % 2**32
        values.append(state >> 24)
    image = residual(Image(order["width"], values), order["mesh"], bool(order["flat"]))
    nodes = nodes_of(image, order["connect"])
    sources = sources_of(nodes, Choice(128, 1, 0, 5))
    counts = {
        "pixels": len(values),
        "nodes": len(nodes),
        "roots": sum(node.parent is None for node in nodes),
        "areas": sum(node.area for node in nodes),
        "fluxes": sum(node.flux for node in nodes),
        "sources": len(sources),
        "mapped": sum(source.area for source in sources),
    }
    return (" ".join(f"{name} {count}" for name, count in counts.items()) + "\n").encode("ascii")


def tree_lines(image: Image, nodes: List[Node]) -> bytes:
    lines = []
    for number, node in enumerate(nodes):
        parent = "-" if node.parent is None else node.parent
        lines.append(f"{number} {node.level} {representative(image, node)} {parent} {node.area}\n")
    return "".join(lines).encode("ascii")


def output_of(order, image: Image, values: Optional[Image]) -> bytes:
    """What a command writes of an image that was read, and of the second one of `measure`."""
    background = order["mesh"], bool(order["flat"])
    image = residual(image, *background)
    nodes = nodes_of(image, order["connect"])
    if order["command"] == "tree":
        return tree_lines(image, nodes)
    if order["command"] == "filter":
        criterion = Criterion(order["min-area"], order["max-area"], order["min-flux"], order["min-fill"])
        return plane_bytes(filtered(image, nodes, order["rule"], criterion))
    sources = sources_of(nodes, Choice(order["threshold"], order["min-area"], order["min-flux"], order["contrast"]))
    rows = [row_of(image, number, source) for number, source in enumerate(sources, 1)]
    if values is None:
        return detection_bytes(image, sources, COLUMNS, rows)
    values = residual(values, *background)
    rows = [row + measure_of(values, nodes, source) for row, source in zip(rows, sources)]
    return detection_bytes(image, sources, COLUMNS + MEASURES, rows)


def answer(words: List[str], data: bytes, most: int = MOST_PIXELS) -> Answer:
    """What `maxdetect` answers to its words and its input, or `maxwide` where images have WIDE_PIXELS at most."""
    try:
        order, values = read_order(words, most), None
        if order["command"] == "trial":
            return Answer(0, trial_line(order), "", 0)
        if order["command"] == "measure":
            image, values, end = find_two(data, order["hdu"], order["values"], most)
        else:
            image, end = find_image(data, order["hdu"], most)
    except WordAtFault as error:
        return Answer(1, b"", f"usage: word {error.word}\n", 0)
    except Fault as error:
        return Answer(2, b"", f"refused: {error.number} {error.text}\n", error.taken)
    return Answer(0, output_of(order, image, values), "", end)


# ---- surveys

MOST_ROWS = 2**20
ROW = struct.Struct(">" + "".join({"J": "i", "K": "q"}[column[-1]] for column in COLUMNS))
FIELD = re.compile(r"[A-Za-z0-9_-]{1,16}")
Tables = Dict[str, List[Cells]]


def read_catalogue(data: bytes, start: int) -> Tuple[List[Cells], int]:
    """The rows of the catalogue that begins at a place, and the place of the next."""
    hdu = find_hdu(data, 2, start)
    width, height = (hdu.axes + [0, 0])[:2]
    if (hdu.kind, hdu.bitpix, len(hdu.axes), width) != ("other", 8, 2, ROW.size) or hdu.size != ROW.size * height:
        raise fault(20, hdu.head)
    if height > MOST_ROWS:
        raise fault(21, hdu.head)
    end = hdu.head + hdu.size
    if len(data) < end:
        raise fault(22, len(data))
    rows = [list(row) for row in ROW.iter_unpack(data[hdu.head : end])]
    for number, row in enumerate(rows, 1):
        if row[0] != number:
            raise fault(23, end, f" row {number}")
    return rows, min(len(data), start + math.ceil((end - start) / BLOCK) * BLOCK)


def read_commands(words: List[str]) -> List[Tuple[str, Union[None, int, str]]]:
    """The commands of a session, or the first word at fault."""
    place, commands = 2 if words[:1] == ["--file"] else 0, []
    if place > len(words) or place == len(words) and commands == [] and place == 2:
        raise WordAtFault(len(words) + 1)
    if not words:
        raise WordAtFault(1)
    while place < len(words):
        name, argument = words[place], None
        if name not in ("add", "drop", "list", "brightest"):
            raise WordAtFault(place + 1)
        if name != "list":
            place += 1
            if place == len(words):
                raise WordAtFault(len(words) + 1)
            try:
                argument = whole_word(words[place], 1, 1000) if name == "brightest" else field_of(words[place])
            except ValueError:
                raise WordAtFault(place + 1) from None
        commands.append((name, argument))
        place += 1
    return commands


def field_of(word: str) -> str:
    if not FIELD.fullmatch(word):
        raise ValueError(word)
    return word


def list_lines(tables: Tables) -> bytes:
    lines = [f"{field} {len(rows)} {sum(row[4] for row in rows)}\n" for field, rows in sorted(tables.items())]
    return "".join(lines).encode("ascii")


def brightest_lines(tables: Tables, count: int) -> bytes:
    rows = [(-row[4], field, row[0], row) for field, each in tables.items() for row in each]
    lines = [f"{field} {row[0]} {row[4]} {row[12]} {row[13]}\n" for _, field, _, row in sorted(rows)[:count]]
    return "".join(lines).encode("ascii")


def session(words: List[str], data: bytes, tables: Tables) -> Answer:
    """What `maxsurvey` answers to its words and its input; the tables are changed in place."""
    output, taken = b"", 0
    try:
        for name, argument in read_commands(words):
            if name == "add":
                tables[argument], taken = read_catalogue(data, taken)
            elif name == "drop":
                if argument not in tables:
                    raise fault(24, taken)
                del tables[argument]
            else:
                output += list_lines(tables) if name == "list" else brightest_lines(tables, argument)
    except WordAtFault as error:
        return Answer(1, b"", f"usage: word {error.word}\n", 0)
    except Fault as error:
        return Answer(2, output, f"refused: {error.number} {error.text}\n", error.taken)
    return Answer(0, output, "", taken)
