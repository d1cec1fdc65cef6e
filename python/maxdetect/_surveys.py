"""The file of a survey, as `maxsurvey --file` keeps it: read-only, as a mapping from fields to catalogues.

The file is an SQLite database with a strict table `source`: for each field its name and the bytes of its rows: a
whole number of 64 bits for each column, the most significant byte first. Nothing is written but by `Survey.seal`,
which puts a sum of each field's bytes into a table of its own beside it; the program goes on to work with such a file.
"""
import collections.abc
import contextlib
import hashlib
import os
import pathlib
import re
import sqlite3
from typing import Dict, Iterable, Iterator, List, Mapping, Optional, Tuple, Union

import numpy
from astropy import units
from astropy.io import fits
from astropy.io.registry import IORegistryError
from astropy.table import Table
from astropy.wcs import WCS

from . import _finishing as finishing, _skyplaces as skyplaces, _survey_files as survey_files
from ._columns import CATALOGUE
from ._errors import Mistake

__all__ = ["COLUMNS", "Survey", "survey"]

# The cells of a row, in their order: the columns of `detect`, which those of `measure` stand behind.
COLUMNS = list(CATALOGUE)
ROW, FLUX = 8 * len(COLUMNS), COLUMNS.index("FLUX")
SUMS = "CREATE TABLE IF NOT EXISTS source_sum (field TEXT NOT NULL PRIMARY KEY, sum TEXT NOT NULL) STRICT"
NAME = re.compile(r"[A-Za-z0-9_-]{1,16}")

Skies = Mapping[str, Union[fits.Header, WCS]]


class Survey(collections.abc.Mapping):
    """The catalogues of a survey's fields, by their names: `survey["NORTH"]` is an astropy `Table`.

    A catalogue has a row for each source, the columns of `maxdetect detect`, all of them 64-bit whole numbers, and
    X and Y, the centre in pixels from 1; each column has its unit and a description. Iteration gives the names in
    their order. The file is opened read-only at each look, so what another process adds is seen at the next one, and
    no look makes a file, or locks one for longer than it takes. A process that writes is waited for, for some seconds.

    Parameters
    ----------
    path : str or os.PathLike
        The survey's file, as `maxsurvey --file` keeps it.

    Attributes
    ----------
    path : str
        The file's name.

    Raises
    ------
    Mistake
        Where a writer takes too long, the file isn't a survey's, or a field's rows have another form.

    Examples
    --------
    >>> import maxdetect
    >>> opened = maxdetect.survey("survey.db")                                      # doctest: +SKIP
    >>> opened["NORTH"]["NUMBER", "FLUX"], list(opened)                             # doctest: +SKIP
    """

    def __init__(self, path: Union[str, os.PathLike]):
        self.path = os.fspath(path)
        self._asked("SELECT count(*) FROM source")

    def _asked(self, text: str, *values) -> List[Tuple]:
        """The rows that a question gives."""
        return survey_files.asked(self.path, text, *values)

    def __iter__(self) -> Iterator[str]:
        return iter([_name(self.path, name) for name, in self._asked("SELECT field FROM source ORDER BY field")])

    def __len__(self) -> int:
        return self._asked("SELECT count(*) FROM source")[0][0]

    def __contains__(self, name: object) -> bool:
        return isinstance(name, str) and bool(self._asked("SELECT 1 FROM source WHERE field = ?", name))

    def __getitem__(self, name: str) -> Table:
        found = self._asked("SELECT cells FROM source WHERE field = ?", name)
        if not found:
            raise KeyError(name)
        return finishing.finished(Table(_rows(self.path, name, found[0][0]), names=COLUMNS), None)

    def _fields(self, names: Optional[Iterable[str]] = None) -> Iterator[Tuple[str, numpy.ndarray]]:
        """The fields, or those that are named, each with its rows."""
        wanted = None if names is None else list(names)
        for name in self if wanted is None else wanted:
            found = self._asked("SELECT cells FROM source WHERE field = ?", name)
            if not found and wanted is not None:
                raise KeyError(name)
            # A field that is gone since its name was read is no field.
            for (cells,) in found:
                yield name, _rows(self.path, name, cells)

    def table(self, names: Optional[Iterable[str]] = None, sky: Optional[Skies] = None) -> Table:
        """The sources of all fields, or of those that are named, as one table with the column FIELD in front.

        Parameters
        ----------
        names : iterable of str, optional
            The fields' names, by default those of all.
        sky : mapping from str to astropy.io.fits.Header or astropy.wcs.WCS, optional
            The headers or WCS of fields, by their names: the table has RA and DEC then, in degrees in the ICRS; they
            are NaN in the fields that it doesn't name, and in those whose frame astropy doesn't know.

        Returns
        -------
        astropy.table.Table
            The sources, field by field.

        Raises
        ------
        KeyError
            Where there is no field of a name.
        Mistake
            Where the file can't be read as a survey's.
        """
        return _together(list(self._fields(names)), sky)

    def brightest(self, count: int, sky: Optional[Skies] = None) -> Table:
        """The sources of the greatest FLUX among all fields, in the order of `maxsurvey brightest`.

        Of equal fluxes the field whose name comes first goes first, and within a field the smaller number.

        Parameters
        ----------
        count : int
            How many sources are wanted at most.
        sky : mapping from str to astropy.io.fits.Header or astropy.wcs.WCS, optional
            The headers or WCS of fields, by their names, as for `table`.

        Returns
        -------
        astropy.table.Table
            The sources, the brightest first.

        Raises
        ------
        Mistake
            Where the file can't be read as a survey's.
        """
        best: List[Tuple[str, numpy.ndarray]] = []
        least, held = None, 0
        for name, rows in self._fields():
            rows = rows[numpy.argsort(-rows[:, FLUX], kind="stable")[:count]]
            best.append((name, rows if least is None else rows[rows[:, FLUX] > least]))
            held += len(best[-1][1])
            if held >= 2 * count:
                best, least = _cut(best, count)
                held = sum(len(rows) for _, rows in best)
        table = _together(_cut(best, count)[0], sky)
        return table[numpy.argsort(-numpy.asarray(table["FLUX"]), kind="stable")]

    # ---- sums

    def seal(self) -> int:
        """Puts a sum of each field's bytes into the file, in a table `source_sum`.

        `changed` tells later which fields aren't what they were: by `maxsurvey`, by another program, or by a disk that
        lost bits, which SQLite itself doesn't tell.

        Returns
        -------
        int
            How many fields there are.

        Raises
        ------
        Mistake
            Where the file can't be written.
        """
        try:
            with contextlib.closing(sqlite3.connect(self.path)) as connection, connection as writing:
                writing.execute(SUMS)
                writing.execute("DELETE FROM source_sum")
                rows = [(name, _sum(cells)) for name, cells in writing.execute("SELECT field, cells FROM source")]
                writing.executemany("INSERT INTO source_sum VALUES (?, ?)", rows)
        except sqlite3.Error as error:
            raise Mistake(f"{self.path}: {survey_files.cause(error)}") from None
        return len(rows)

    def changed(self) -> List[str]:
        """The names of the fields that aren't what they were when the file was sealed.

        Returns
        -------
        list of str
            The fields that are others, new ones, and those that are gone, in the order of their names.

        Raises
        ------
        Mistake
            Where the file was never sealed, or can't be read as a survey's.
        """
        if not self._asked("SELECT 1 FROM sqlite_master WHERE type = 'table' AND name = 'source_sum'"):
            raise Mistake(f"{self.path} was never sealed")
        sealed = {name: told for name, told in self._asked("SELECT field, sum FROM source_sum")}
        now = {name: _sum(cells) for name, cells in self._asked("SELECT field, cells FROM source")}
        return sorted(name for name in {*sealed, *now} if sealed.get(name) != now.get(name))


def survey(path: Union[str, os.PathLike]) -> Survey:
    """The survey in a file, read-only.

    Parameters
    ----------
    path : str or os.PathLike
        The survey's file, as `maxsurvey --file` keeps it.

    Returns
    -------
    Survey
        Its fields' catalogues, by their names.

    Raises
    ------
    Mistake
        Where there is no survey in the file.
    """
    return Survey(path)


# ---- catalogues


def _name(path: str, name) -> str:
    if not isinstance(name, str) or not NAME.fullmatch(name):
        raise Mistake(f"{path}: {name!r} is no field's name")
    return name


def _sum(cells) -> str:
    return hashlib.sha256(cells if isinstance(cells, bytes) else str(cells).encode()).hexdigest()


def _rows(path: str, name: str, cells) -> numpy.ndarray:
    """A field's rows, which are numbered from 1."""
    if not isinstance(cells, bytes) or len(cells) % ROW:
        raise Mistake(f"{path}: the rows of the field {name} have another form")
    rows = numpy.frombuffer(cells, dtype=">i8").astype("i8").reshape(-1, len(COLUMNS))
    if not numpy.array_equal(rows[:, 0], numpy.arange(1, len(rows) + 1)):
        raise Mistake(f"{path}: the rows of the field {name} aren't numbered by their places")
    return rows


def _cut(found: List[Tuple[str, numpy.ndarray]], count: int):
    """Of the rows of some fields those of the greatest fluxes, of equal ones the first, and the least flux that is
    left where there are so many.
    """
    if not found:
        return found, None
    fluxes = numpy.concatenate([rows[:, FLUX] for _, rows in found])
    order = numpy.argsort(-fluxes, kind="stable")[:count]
    kept = numpy.zeros(len(fluxes), dtype=bool)
    kept[order] = True
    ends = numpy.cumsum([len(rows) for _, rows in found])
    left = [(name, rows[kept[end - len(rows) : end]]) for (name, rows), end in zip(found, ends)]
    return [it for it in left if len(it[1])], int(fluxes[order[-1]]) if len(order) == count else None


def _together(found: List[Tuple[str, numpy.ndarray]], sky: Optional[Skies]) -> Table:
    """The rows of some fields as one table: their names in front, and, where there is a sky, their places."""
    rows = numpy.concatenate([rows for _, rows in found] or [numpy.zeros((0, len(COLUMNS)), dtype="i8")])
    table = finishing.finished(Table(rows, names=COLUMNS), None)
    if sky is not None:
        ends = numpy.cumsum([len(rows) for _, rows in found])
        places = numpy.full((2, len(rows)), numpy.nan)
        for (name, field), end in zip(found, ends):
            if name in sky:
                part = slice(end - len(field), end)
                places[:, part] = skyplaces.icrs_places(sky[name], table["X"][part], table["Y"][part])
        for axis, values, text in zip(("RA", "DEC"), places, ("right ascension", "declination")):
            table[axis] = values
            table[axis].unit, table[axis].description = units.deg, f"{text} of the centre in the ICRS"
    names = numpy.array([name for name, _ in found], dtype="U16")
    table.add_column(numpy.repeat(names, [len(rows) for _, rows in found]), index=0, name="FIELD")
    table["FIELD"].description = "name of the field"
    return table


def fields_of(path: Union[str, os.PathLike]) -> Dict[str, fits.Header]:
    """The headers of fields, by a table with the columns FIELD and IMAGE: CSV, ECSV, FITS or VOTable. IMAGE is the
    name of a FITS file, from the table's own folder on, whose first HDU with a celestial WCS counts.
    """
    try:
        listed = Table.read(path)
    except IORegistryError:
        raise Mistake(f"{path}: no table that is known by its name's end, as of CSV, ECSV, FITS or VOTable") from None
    except (OSError, ValueError, TypeError) as error:
        raise Mistake(f"{path}: this table can't be read ({' '.join(str(error).split())[:80]})") from None
    if not {"FIELD", "IMAGE"} <= set(listed.colnames):
        raise Mistake(f"{path}: a table of fields has the columns FIELD and IMAGE")
    folder = pathlib.Path(path).resolve().parent
    return {str(row["FIELD"]): _celestial(folder / str(row["IMAGE"])) for row in listed}


def _celestial(path: pathlib.Path) -> fits.Header:
    """The first header of a file that has celestial coordinates."""
    try:
        with fits.open(path, memmap=True) as hdus:
            for hdu in hdus:
                if "CTYPE1" in hdu.header and "CTYPE2" in hdu.header:
                    return hdu.header.copy()
    except OSError as error:
        raise Mistake(f"{path}: {error.strerror or 'no FITS file'}") from None
    raise Mistake(f"{path}: no header has sky coordinates")
