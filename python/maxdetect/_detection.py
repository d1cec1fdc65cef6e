"""From a field to its sources: by the program, a tile at a time, and then their photometry."""
import concurrent.futures
import contextlib
import dataclasses
import multiprocessing
import sys
import threading
from typing import Any, Callable, Dict, Iterator, List, NamedTuple, Optional, Tuple, Union

import numpy

from . import (
    _cleaning as cleaning,
    _cosmic as cosmic,
    _flagmap as flagmap,
    _holding as holding,
    _joining as joining,
    _kernel as kernel,
    _looks as looks,
    _maps as maps,
    _measuring as measuring,
    _sights as sights,
    _pieces as pieces,
    _pointlike as pointlike,
    scaling,
    _sky as sky,
    _spare as spare,
)
from ._bands import columns as band_columns
from ._executors import each
from ._fields import Field, in_parts, noise_of, sky_of
from ._flags import CUT, WIDE
from ._limits import TILE
from ._rows import Rows, side_by_side
from ._settings import Settings
from ._windows import MOST_PIXELS, Box, Plan

__all__ = ["TILE", "Detector", "Field", "Settings", "sources"]


# So many rows of a window are prepared at a time: with those around them that count too, as many as are read at once.
ROWS = 240
# How far a tile's window reaches beyond its core at first, in pixels.
MARGIN = 48
# How many neighbours a pixel has.
CONNECT = 8
# How many seconds a thread that works beside others holds Python's lock where one waits for it: with Python's own
# number, which is 25 times as much, a program that has ended waits for a tenth of its time.
SWITCH = 2e-4


class Detector:
    """Looks at windows of a field: at what stands above its sky, in thirtieths of the noise."""

    def __init__(self, field: Field, found: sky.Sky, how: looks.Way, program: Optional[kernel.Path] = None):
        self.field, self.settings, self.program, self.how = field, field.settings, program, how
        self.sky = found if self.settings.mesh else found.flat()
        self.strips: Dict[str, int] = {}
        self.own_turn, self.program_turn = contextlib.nullcontext(), contextlib.nullcontext()
        self.whole = Box(0, field.shape[0], 0, field.shape[1])
        # What is made of a component depends on the pixels up to so many columns and rows from it.
        self.reach = cleaning.reach(how.width) if self.settings.clean else 1

    def share_strips(self) -> None:
        """From here on the program works with as many threads as there are workers: the image is looked at whole."""
        if self.settings.workers > 1:
            self.strips = {"strips": 16, "workers": self.settings.workers}

    @property
    def plan(self) -> Plan:
        """How the image is looked at."""
        return Plan(self.whole, self.settings.tile, max(MARGIN, 2 * self.reach), largest=MOST_PIXELS)

    def noise(self, rows: slice, columns: slice) -> Union[float, numpy.ndarray]:
        """The noise of a window's pixels, in the image's units: one number, or an array."""
        return noise_of(self.field, self.sky, rows, columns)

    def middle_noise(self) -> float:
        """The noise of a pixel, with a weight map the median along the middle row."""
        if self.field.weights is None:
            return self.sky.noise
        middle = self.field.shape[0] // 2
        noise = numpy.asarray(self.noise(slice(middle, middle + 1), slice(0, self.field.shape[1])))
        return float(numpy.median(noise[numpy.isfinite(noise)])) if numpy.isfinite(noise).any() else self.sky.noise

    def numbers(self, box: Box) -> sights.Numbers:
        """What the program is to see of a window."""
        made = sights.Numbers(box.shape)
        # Some rows at a time stay in the processor's cache.
        for top in range(box.top, box.bottom, ROWS):
            rows = slice(top, min(top + ROWS, box.bottom))
            seen = looks.seen(self.field, self.sky, self.how.smooth, rows, box.columns)
            own = made.array[top - box.top : rows.stop - box.top]
            scaling.put_whole_numbers(own, seen, scaling.SIGMA / self.how.noise)
            maps.let_go(made.array)
        return made

    def __call__(self, core: Box, window: Box, make: Callable = holding.piece) -> holding.Piece:
        """The sources that belong to a tile. Where the field is cleaned, the column KEPT says of each whether it is
        more than a peak of noise on faint light.
        """
        how, settings = self.how, self.settings
        options = {"min_area": how.min_area, "contrast": settings.contrast or 0, "connect": CONNECT, "mesh": 0}
        with self.own_turn:
            seen = self.numbers(window)
        with self.program_turn:
            sight = seen.seen(window, self.whole, how.threshold, self.program, **options, **self.strips)
        with self.own_turn:
            return make(self._parts(seen.array, sight), sight.open, core, window, self.whole, self.reach)

    def _parts(self, seen: numpy.ndarray, sight: sights.Sight) -> pieces.Parts:
        """What is made of the program's answer for these numbers."""
        how, settings = self.how, self.settings
        least = settings.split_sigmas if settings.contrast is None else 0
        parts = pieces.sources(seen, sight.rows, sight.segments, how.threshold, how.significance, least, how.patch)
        if settings.clean:
            parts.catalogue["KEPT"] = cleaning.kept(seen, parts, how.threshold, how.min_area, how.width, how.variance)
        return parts


def sources(
    field: Field,
    executor: Optional[concurrent.futures.Executor] = None,
    *,
    segments: Optional[numpy.ndarray] = None,
    room: Optional[numpy.ndarray] = None,
    bands: Optional[Dict[str, Field]] = None,
    told: Optional[Callable] = None,
    progress: Callable[[int], None] = lambda count: None,
    meanwhile: Optional[Callable[[], None]] = None,
    program: Optional[kernel.Path] = None,
) -> Rows:
    """The sources of a field with their photometry, in columns and rows of the image, numbered by their first pixels.

    Tiles and photometry run in the executor. `segments`, an array of the image's shape full of zeros, gets the map;
    where none is wanted, `room` is such an array to work in.
    `bands` are fields with the same image and others to measure in: each adds columns with its name. `told` is called
    with the detector, the sky beside the sources of what is measured in and that with them, and the table.
    `progress` is called with 1 for each tile, after a first call with 0, and with 0 now and then; `meanwhile` when the
    first tiles are at work in the executor. The table's meta has the program's threshold (THRESH), the width by which
    the image was smoothed (SMOOTH) and that of its point sources (FWHM, where it has enough of them), whether
    FLUX_TOTAL is told by point sources (GROWTH), how many sources were left out as peaks of noise on faint light
    (NCLEANED), and the noise: SIGMA, or with a weight map NOISE, about the middle of the image.
    """
    wanted = segments is not None
    with _hands(field, executor) as hands:
        detector = _detector(field, hands, program)
        segments = room if segments is None else segments
        segments = numpy.zeros(field.shape, dtype="i4") if segments is None else segments
        progress(0)
        found = _found(detector, hands, segments, progress, meanwhile)
        skies = _Skies.of(detector, segments, hands)
        table = _measured(detector, skies, found.rows, segments, hands, bands or {}, progress)
        if told is not None:
            told(detector, skies.beside, skies.own, table)
        table["FLAGS"] |= numpy.where(found.cut, CUT, 0).astype(table["FLAGS"].dtype)
        if field.settings.wide:
            table = _with_wide(detector, table, segments, hands, bands or {})
    if wanted:
        joining.hide(segments)
    table.meta.update(_meta(detector, skies, found))
    return table


class _TwoThreads(concurrent.futures.ThreadPoolExecutor):
    """Those of a worker that has a field to itself."""

    def __init__(self):
        super().__init__(2)


@contextlib.contextmanager
def _hands(field: Field, executor: Optional[concurrent.futures.Executor]):
    """What works on the parts of a field: the executor, or two threads, where one worker has a large field to itself.
    One of them goes on while the other's program is at work, or a loop in C. In one of several workers each has a
    processor of its own.
    """
    with contextlib.ExitStack() as stack:
        if executor is None and max(field.shape) > field.settings.tile and multiprocessing.parent_process() is None:
            spare.one_heap()
            stack.callback(sys.setswitchinterval, sys.getswitchinterval())
            sys.setswitchinterval(SWITCH)
            executor = stack.enter_context(_TwoThreads())
        yield executor


def _detector(
    field: Field, executor: Optional[concurrent.futures.Executor], program: Optional[kernel.Path]
) -> Detector:
    """What looks at a field's windows, when its sky is known, and the pixels that cosmic rays have hit."""
    found = sky_of(field, in_parts(field, executor))
    if field.settings.cosmic_rays:
        field = dataclasses.replace(field, struck=cosmic.struck(field, found))
    detector = Detector(field, found, looks.way(field, found, in_parts(field, executor)), program)
    if len(detector.plan.cores()) == 1:
        detector.share_strips()
    return detector


class _Found(NamedTuple):
    """The sources that are found, which of them are cut, and how many were left out as peaks of noise."""

    rows: Rows
    cut: numpy.ndarray
    cleaned: int


def _found(
    detector: Detector,
    executor: Optional[concurrent.futures.Executor],
    segments: numpy.ndarray,
    progress: Callable[[int], None],
    meanwhile: Optional[Callable[[], None]],
) -> _Found:
    """The sources of all tiles; the map has them."""
    gathered, plan = joining.Gathered(segments, progress), detector.plan
    with _taking_turns(detector, executor) as finders:

        def made(tiles: List[Tuple[Box, Box]]) -> Iterator[holding.Piece]:
            return each(finders, _Tile(detector), tiles, meanwhile)

        left = plan.looked_at(made, gathered.take)
        if left and detector.whole.pixels <= plan.largest:
            gathered.drop()
            detector.share_strips()
            gathered.take(detector(detector.whole, detector.whole))
        elif left:
            for piece in each(finders, _Tile(detector, holding.cut_piece), left):
                gathered.take(piece)
    table, cut = gathered.rows(executor)
    return _Found(table, cut, gathered.count - len(table))


def _meta(detector: Detector, skies: "_Skies", found: _Found) -> Dict[str, Any]:
    """What a catalogue says of how its sources were found."""
    field = detector.field
    told: Dict[str, Any] = {**detector.how.meta}
    told.update(GROWTH=skies.points is not None, NCLEANED=found.cleaned)
    if field.struck is not None:
        told["NCOSMIC"] = int(field.struck.sum())
    # With a weight map the sky's noise is a factor, and no noise of the image.
    told["NOISE" if field.weights is not None else "SIGMA"] = detector.middle_noise()
    return told


@contextlib.contextmanager
def _taking_turns(detector: Detector, executor: Optional[concurrent.futures.Executor]):
    """What looks at tiles. In the place of two threads there are three: programs look at two tiles while Python
    prepares one or takes one up, which it does for one at a time, so that memory has room for all.
    """
    with contextlib.ExitStack() as stack:
        stack.callback(spare.give_back)
        if isinstance(executor, _TwoThreads):
            for name, most in (("own_turn", 1), ("program_turn", 2)):
                stack.callback(setattr, detector, name, contextlib.nullcontext())
                setattr(detector, name, threading.BoundedSemaphore(most))
            executor = stack.enter_context(concurrent.futures.ThreadPoolExecutor(3))
        yield executor


class _Skies(NamedTuple):
    """The sky of what is measured in, that beside the sources, and its point sources."""

    own: Optional[sky.Sky]
    beside: Optional[sky.Sky]
    points: Optional[pointlike.PointSources]

    @classmethod
    def of(
        cls, detector: Detector, segments: numpy.ndarray, executor: Optional[concurrent.futures.Executor]
    ) -> "_Skies":
        """Those of a field whose map this is."""
        own = measuring.sky_of_values(detector, executor)
        beside = measuring.sky_beside(detector, segments, executor, own)
        return cls(own, beside, measuring.points_of(detector, beside, executor))


def _measured(detector: Detector, skies: _Skies, table: Rows, segments: numpy.ndarray, executor, bands, progress):
    """Rows with their photometry in what is measured and in each band, and what the flag map has over them."""
    own, level, points = skies
    parts = [table, measuring.measured(detector, level, points, table, segments, executor, progress, own)]
    for name, other in bands.items():
        parts.append(band_columns(detector, name, other, table, segments, executor, progress))
    table = side_by_side(parts)
    if detector.field.flag_map is not None:
        table["IMAFLAGS"] = flagmap.over(detector.field.flag_map, table, segments)
    return table


def _with_wide(detector: Detector, table: Rows, segments: numpy.ndarray, executor, bands) -> Rows:
    """The sources of a field with the wide ones that are found besides; its map gets them too.

    Wide sources are measured above the sky in which they are found, and other sources as if they weren't there: their
    light is that of both.
    """
    # SciPy, which it stands on, takes long to load.
    from . import _wide as wide

    field, found = wide.beneath(detector.field)
    more = wide.found(field, found, segments, detector.program)
    if not len(more.rows):
        return table
    more.rows["NUMBER"] = numpy.arange(len(table) + 1, len(table) + len(more.rows) + 1, dtype="i4")
    for number, (box, pixels) in zip(more.rows["NUMBER"].tolist(), more.places):
        segments[box.rows, box.columns][pixels] = number
    how = dataclasses.replace(detector.how, threshold=wide.THRESHOLD)
    detector = Detector(field, found, how, detector.program)
    own = measuring.sky_of_values(detector)
    skies = _Skies(own, measuring.sky_beside(detector, segments, executor, own), None)
    rows = _measured(detector, skies, more.rows, segments, executor, bands, lambda count: None)
    rows["FLAGS"] |= WIDE
    meta = table.meta
    table, places = joining.numbered([table, rows])
    joining.renumber(segments, places, len(places))
    table.meta = meta
    return table


@dataclasses.dataclass
class _Tile:
    """The work on one tile."""

    detector: Detector
    make: Callable = holding.piece

    def __call__(self, item: Tuple[Box, Box]) -> holding.Piece:
        return self.detector(*item, self.make)
