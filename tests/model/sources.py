"""Background, components, filters and sources of an image, by their definitions.

Each component is found by searching a threshold set pixel by pixel. There is no tree, no strip and no queue.
"""
import dataclasses
from typing import Dict, FrozenSet, List, Optional, Tuple

from .headers import Image


Cells = List[int]


# ---- background


def lower_median(numbers: List[int]) -> int:
    return sorted(numbers)[(len(numbers) - 1) // 2]


def image_median(image: Image) -> int:
    """The lower median of all values, or 0."""
    return lower_median([value for value in image.values if value is not None] or [0])


def cell_levels(image: Image, mesh: int, empty: Optional[int] = None) -> Dict[Tuple[int, int], int]:
    """The lower median of each cell of the mesh, or where the cell has no value, the given number, or else the whole
    image's median.
    """
    cells: Dict[Tuple[int, int], List[int]] = {}
    for pixel, value in enumerate(image.values):
        row, column = divmod(pixel, image.width)
        cells.setdefault((column // mesh, row // mesh), []).extend([] if value is None else [value])
    other = image_median(image) if empty is None else empty
    return {cell: lower_median(numbers or [other]) for cell, numbers in cells.items()}


def smooth_level(levels: Dict[Tuple[int, int], int], mesh: int, column: int, row: int) -> int:
    """The level between the filtered numbers of the cells whose centres lie around a pixel, rounded down."""

    def filtered(i: int, j: int) -> int:
        return lower_median(
            [levels[k, m] for k in range(i - 1, i + 2) for m in range(j - 1, j + 2) if (k, m) in levels]
        )

    last_column, last_row = max(levels)[0], max(j for _, j in levels)
    (i, a), (j, b) = (divmod(2 * place + 1 - mesh, 2 * mesh) for place in (column, row))
    total = 0
    for k, across in ((i, 2 * mesh - a), (i + 1, a)):
        for m, along in ((j, 2 * mesh - b), (j + 1, b)):
            total += across * along * filtered(min(max(k, 0), last_column), min(max(m, 0), last_row))
    return total // (4 * mesh * mesh)


def residual(image: Image, mesh: int, flat: bool, empty: Optional[int] = None) -> Image:
    """The image less its background; a number may be given for the cells of the mesh without a value."""
    if mesh == 0:
        return image
    levels, values = cell_levels(image, mesh, empty), []
    for pixel, value in enumerate(image.values):
        row, column = divmod(pixel, image.width)
        level = levels[column // mesh, row // mesh] if flat else smooth_level(levels, mesh, column, row)
        values.append(None if value is None else value - level)
    return Image(image.width, values)


# ---- components and nodes


@dataclasses.dataclass
class Node:
    """A connected component of a threshold set, with the highest level at which it is one."""

    level: int
    pixels: FrozenSet[int]
    parent: Optional[int] = None
    base: int = 0
    flux: int = 0

    @property
    def area(self) -> int:
        return len(self.pixels)


def neighbours(image: Image, connect: int, pixel: int) -> List[int]:
    row, column = divmod(pixel, image.width)
    steps = [(-1, 0), (1, 0), (0, -1), (0, 1)] + ([(-1, -1), (-1, 1), (1, -1), (1, 1)] if connect == 8 else [])
    places = [(row + down, column + right) for down, right in steps]
    return [y * image.width + x for y, x in places if 0 <= y < image.height and 0 <= x < image.width]


def components(image: Image, connect: int, level: int) -> List[FrozenSet[int]]:
    """The connected components of the threshold set of a level."""
    left, found = {pixel for pixel, value in enumerate(image.values) if value is not None and value >= level}, []
    while left:
        waiting, component = [left.pop()], set()
        while waiting:
            pixel = waiting.pop()
            component.add(pixel)
            new = left.intersection(neighbours(image, connect, pixel))
            left -= new
            waiting += new
        found.append(frozenset(component))
    return found


def representative(image: Image, node: Node) -> int:
    return min(pixel for pixel in node.pixels if image.values[pixel] == node.level)


def nodes_of(image: Image, connect: int) -> List[Node]:
    """The distinct components of all threshold sets, in the order of level and representative, each with its parent:
    the smallest that is larger.
    """
    levels = sorted({value for value in image.values if value is not None})
    found = {component: level for level in levels for component in components(image, connect, level)}
    nodes = [Node(level, component) for component, level in found.items()]
    nodes.sort(key=lambda node: (node.level, representative(image, node)))
    for node in nodes:
        larger = [number for number, other in enumerate(nodes) if node.pixels < other.pixels]
        node.parent = min(larger, key=lambda number: nodes[number].area) if larger else None
        node.base = node.level if node.parent is None else nodes[node.parent].level
        node.flux = sum(image.values[pixel] - node.base for pixel in node.pixels)
    return nodes


# ---- filters


@dataclasses.dataclass
class Criterion:
    min_area: int
    max_area: int
    min_flux: int
    min_fill: int

    def accepts(self, image: Image, node: Node) -> bool:
        xmin, xmax, ymin, ymax = box_of(image, node)
        box = (xmax - xmin + 1) * (ymax - ymin + 1)
        is_filled = 1000 * node.area >= self.min_fill * box
        return self.min_area <= node.area <= self.max_area and node.flux >= self.min_flux and is_filled


def box_of(image: Image, node: Node) -> Tuple[int, int, int, int]:
    """The least and the greatest column and row, from 1."""
    columns, rows = [pixel % image.width + 1 for pixel in node.pixels], [
        pixel // image.width + 1 for pixel in node.pixels
    ]
    return min(columns), max(columns), min(rows), max(rows)


def is_kept(image: Image, nodes: List[Node], node: Node, rule: str, criterion: Criterion) -> bool:
    if node.parent is None:
        return True
    if rule == "min":
        return all(criterion.accepts(image, other) for other in nodes if node.pixels <= other.pixels)
    if rule == "max":
        return any(criterion.accepts(image, other) for other in nodes if other.pixels <= node.pixels)
    return criterion.accepts(image, node)


def filtered(image: Image, nodes: List[Node], rule: str, criterion: Criterion) -> Image:
    """The image that the kept nodes leave."""
    kept, values = [node for node in nodes if is_kept(image, nodes, node, rule, criterion)], []
    for pixel, value in enumerate(image.values):
        holding = [node for node in kept if pixel in node.pixels]
        if value is None:
            values.append(None)
        elif rule == "subtractive":
            values.append(sum(node.level if node.parent is None else node.level - node.base for node in holding))
        else:
            values.append(min(holding, key=lambda node: node.area).level)
    return Image(image.width, values)


# ---- sources


@dataclasses.dataclass
class Choice:
    threshold: int
    min_area: int
    min_flux: int
    contrast: int

    def is_large(self, node: Node) -> bool:
        return node.area >= self.min_area and node.flux >= self.min_flux


def sources_of(nodes: List[Node], choice: Choice) -> List[Node]:
    """The sources, in the order of their least pixels."""
    found = []
    for entry in nodes:
        is_highest = entry.parent is None or nodes[entry.parent].level < choice.threshold
        if entry.level < choice.threshold or not is_highest or not choice.is_large(entry):
            continue
        within = [node for node in nodes if node.pixels <= entry.pixels]
        strong = [node for node in within if choice.is_large(node) and 1000 * node.flux >= choice.contrast * entry.flux]
        parents = [node.parent for node in strong if node is not entry]
        splits = [nodes[number] for number in set(parents) if parents.count(number) >= 2]
        for node in within:
            is_part = node in strong and node is not entry and parents.count(node.parent) >= 2
            if (node is entry or is_part) and not any(split.pixels <= node.pixels for split in splits):
                found.append(node)
    return sorted(found, key=lambda node: min(node.pixels))


def map_of(image: Image, sources: List[Node]) -> List[int]:
    numbers = [0] * len(image.values)
    for number, source in enumerate(sources, 1):
        for pixel in source.pixels:
            numbers[pixel] = number
    return numbers


# The columns of a row, and behind them those of the measures in a second image, each with its kind.
COLUMNS = (
    "NUMBER:J LEVEL:K BASE:K AREA:J FLUX:K PEAK:K XMIN:J XMAX:J YMIN:J YMAX:J XFIRST:J YFIRST:J XCEN:J YCEN:J "
    "XVAR:K YVAR:K XYCOV:K"
).split()
MEASURES = "SEEN:J MISSING:J VSUM:K VLOW:K VPEAK:K VMEAN:K VBACK:K".split()


def row_of(image: Image, number: int, node: Node) -> Cells:
    """The cells of a source, in the order of the columns."""
    points = [
        (pixel % image.width + 1, pixel // image.width + 1, image.values[pixel] - node.base) for pixel in node.pixels
    ]
    area, first = node.area, min(node.pixels)
    x, y = sum(x for x, _, _ in points), sum(y for _, y, _ in points)
    if node.flux:
        centre = [1000 * sum(point[axis] * point[2] for point in points) // node.flux for axis in (0, 1)]
    else:
        centre = [1000 * x // area, 1000 * y // area]
    moments = [(0, 0, x, x), (1, 1, y, y), (0, 1, x, y)]
    spread = [
        1000 * (area * sum(point[i] * point[j] for point in points) - u * v) // (area * area) for i, j, u, v in moments
    ]
    peak = max(image.values[pixel] for pixel in node.pixels)
    place = [first % image.width + 1, first // image.width + 1]
    return [number, node.level, node.base, area, node.flux, peak, *box_of(image, node), *place, *centre, *spread]


def measure_of(values: Image, nodes: List[Node], node: Node) -> Cells:
    """The further cells of a source that is measured in a second image."""
    seen = [values.values[pixel] for pixel in node.pixels if values.values[pixel] is not None]
    around = frozenset() if node.parent is None else nodes[node.parent].pixels - node.pixels
    beside = [values.values[pixel] for pixel in around if values.values[pixel] is not None]
    means = [1000 * sum(numbers) // len(numbers) if numbers else 0 for numbers in (seen, beside)]
    return [len(seen), node.area - len(seen), sum(seen), min(seen, default=0), max(seen, default=0), *means]
