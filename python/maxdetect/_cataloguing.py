"""The work of `maxcat` on an image file: its catalogue, with all that is written beside it."""
import argparse
import concurrent.futures
import contextlib
import functools
import os
import shlex
import tempfile
from typing import TYPE_CHECKING, Callable, Dict, List, Optional

import numpy

from . import (
    __version__,
    _asked as asked,
    _checks as checks,
    _detection as detection,
    _finishing as finishing,
    _headings as headings,
    _maps as maps,
    _planefiles as planefiles,
    _pools as pools,
    _regions as regions,
    _skyplaces as skyplaces,
    _tables as tables,
)
from ._errors import Mistake
from ._images import Plane
from ._rows import Rows
from ._tasks import Task, form_of, outputs_of
from ._telling import about
from ._wholefiles import whole_files

if TYPE_CHECKING:
    from . import _report as report

__all__ = ["done", "load"]

Executor = concurrent.futures.Executor
# A map of more pixels isn't held in memory.
LARGE = 2**22


@contextlib.contextmanager
def _scratch_map(shape, tiles: Optional[Executor]):
    """A map in a file of its own that goes away: in one that those who work on tiles have open, where there is one."""
    with contextlib.ExitStack() as stack:
        shared = stack.enter_context(tiles.file()) if isinstance(tiles, pools.Processes) else None
        file = shared or stack.enter_context(tempfile.TemporaryFile())
        with about(tempfile.gettempdir()):
            planefiles.make_room(file, 4 * shape[0] * shape[1])
        yield maps.in_file(file, shape) if shared else numpy.memmap(file, "i4", "r+", shape=shape)


@contextlib.contextmanager
def _room_for_map(segments: Optional[numpy.ndarray], shape, tiles: Optional[Executor]):
    """Where no map is asked for a large one stands in a file that goes away, as long as the disk has room for it; None
    stands for one in memory.
    """
    room = None
    with contextlib.ExitStack() as stack:
        if segments is None and shape[0] * shape[1] > LARGE:
            with contextlib.suppress(Mistake, OSError):
                room = stack.enter_context(_scratch_map(shape, tiles))
        yield room


@contextlib.contextmanager
def _maps(task: Task, given: argparse.Namespace, name: Optional[str], tiles: Optional[Executor]):
    """For each field the map that is to be filled, or None; the file of this name has them, where there is one."""
    with contextlib.ExitStack() as stack:
        if name is not None:
            yield _planes_in(given.map, name, task, ">i4")
        elif given.plot:
            yield [stack.enter_context(_scratch_map(field.shape, tiles)) for field in task.fields]
        else:
            yield [None for _ in task.fields]


def _planes_in(path: str, name: str, task: Task, dtype: str, **cards: str) -> List[numpy.ndarray]:
    """An image for each field, full of zeros, in a FITS file that is made for them and will be called `path`."""
    heads = [planefiles.Head(field.plane.header, _extension(field, task), field.shape) for field in task.fields]
    with about(path):
        return planefiles.made(name, heads, dtype, **cards)


def _extension(field: detection.Field[Plane], task: Task) -> str:
    """The name of an image's HDU where no other has it, and else its number."""
    name = field.plane.name
    alone = [other.plane.name for other in task.fields].count(name) == 1
    return name if name and alone else str(field.plane.number)


def _finished(table: Rows, number: int, task: Task, given: argparse.Namespace) -> Rows:
    """What was found in one of the fields, with all that a reader wants."""
    field, unit = task.fields[number], task.units[number]
    extension = _extension(field, task) if given.hdu == "all" else None
    table.meta.update(headings.of_field(field, given.zeropoint), HDU=headings.plain(_extension(field, task)))
    zeropoints = {name: given.zeropoint for name in task.bands[number]} if given.zeropoint is not None else {}
    zeropoints.update(given.band_zeropoint or [])
    return finishing.finished_rows(
        table,
        field.plane.header,
        zeropoint=given.zeropoint,
        unit=unit,
        extension=extension,
        bands={name: (zeropoints.get(name), other.measured.plane.unit) for name, other in task.bands[number].items()},
    )


def _behind_each_other(found: List[Rows]) -> Rows:
    """The rows of several fields, which may have different columns: what one hasn't is masked there."""
    from astropy.table import vstack

    return Rows.of(vstack([it.table() for it in found], metadata_conflicts="silent"))


def _joined(found: List[Rows], task: Task, given: argparse.Namespace) -> Rows:
    """The rows of all fields, with cards that say what was used for each."""
    table = found[0] if len(found) == 1 else _behind_each_other(found)
    table.meta = headings.joined([it.meta for it in found])
    table.meta.update(IMAGE=headings.plain(os.path.basename(task.path)), VERSION=f"maxcat {__version__}")
    table.meta["OPTIONS"] = headings.plain(given.options)
    return table


def _count_on(table: Rows, segments: Optional[numpy.ndarray], before: int) -> None:
    """Numbers the sources of a field, in its map too, from those that the fields before it have."""
    table["NUMBER"] += before
    if segments is not None and before:
        for rows in maps.bands(segments):
            own = segments[rows]
            own[own > 0] += before


def _draw(table: Rows, task: Task, given: argparse.Namespace, segments, names: Dict[str, str], shown=None) -> None:
    """Writes the picture and the page."""
    if given.plot:
        from . import _pictures as pictures

        with about(given.plot):
            pictures.draw(task.fields[0].image(slice(None)), segments, table, names[given.plot], crop=given.crop)
    if given.report:
        from . import _report as report

        with about(given.report):
            report.write(task.fields[0].image(slice(None)), table.table(), names[given.report], shown)


def _write(found: List[Rows], task: Task, given: argparse.Namespace, names: Dict[str, str]) -> Rows:
    """Writes the regions and the catalogue, each file under the name that it has for now, and gives the catalogue."""
    table = _joined(found, task, given)
    if given.regions:
        with about(given.regions):
            regions.write(table, names[given.regions])
    with about(task.output):
        if form_of(task, given) == "ldac":
            from . import _ldac as ldac

            parts = [ldac.Part(own, field.plane, field.shape) for own, field in zip(found, task.fields)]
            ldac.write(parts, names[task.output], given.names)
        else:
            tables.write(asked.picked(table, given.names), names[task.output], form_of(task, given))
    return table


def _check_images(task: Task, given: argparse.Namespace, names: Dict[str, str]) -> Dict[str, List[numpy.ndarray]]:
    """The check images by their kinds, one for each field."""
    paths = {kind: checks.name(task.output, kind) for kind in given.check or []}
    return {kind: _planes_in(path, names[path], task, ">f4", CHECK=kind) for kind, path in paths.items()}


def _told(filled: Callable, skies: list) -> Callable:
    """What is done when a field's sources are known: check images are filled, and its sky is kept for a page."""
    from . import _report as report

    def told(detector, found, own, table) -> None:
        filled(detector, found, own, table)
        skies.append(report.skies(detector, found, own))

    return told


def load(task: Task, given: argparse.Namespace, number: int = 0) -> None:
    """Has loaded what the sources of one of the fields will be finished and written by."""
    skyplaces.load(task.fields[number].plane.header)
    tables.load(form_of(task, given))


def done(task: Task, given: argparse.Namespace, tiles, progress) -> str:
    """Finds and writes a file's sources, and says so."""
    with about(task.output), whole_files(outputs_of(task, given)) as names, _maps(
        task, given, names.get(given.map), tiles
    ) as planes:
        found: List[Rows] = []
        skies: List["report.Skies"] = []
        shown = _check_images(task, given, names)
        for number, (field, segments) in enumerate(zip(task.fields, planes)):
            filled = checks.writer({kind: each[number] for kind, each in shown.items()})
            told = _told(filled, skies) if given.report else filled
            more = {"bands": task.bands[number], "told": told, "progress": progress}
            more["meanwhile"] = functools.partial(load, task, given, number)
            with _room_for_map(segments, field.shape, tiles) as room:
                table = detection.sources(field, tiles, segments=segments, room=room, **more)
            _count_on(table, segments, sum(map(len, found)))
            found.append(_finished(table, number, task, given))
        table = _write(found, task, given, names)
        _draw(table, task, given, planes[0], names, *skies)
    written = f"{len(table)} sources in {shlex.quote(task.output)}"
    if task.survey_field:
        from . import _adding as adding

        try:
            adding.add(given.survey, task.survey_field, table, unit=given.survey_unit or 1.0)
        except Mistake as fault:
            raise Mistake(f"{fault}; {written}") from None
    return written
