"""The command `python -m maxdetect survey`: the fields of a survey as one table."""
import argparse
import contextlib
import os
import pathlib
import sqlite3
from typing import Iterator, List, Optional

import numpy
from astropy.table import Table

from . import _survey_files as survey_files, _surveys as surveys, _tables as tables
from ._errors import Mistake
from ._wholefiles import whole_file
from ._words import Parser, whole

DESCRIPTION = """Reads the file of a survey, as `maxsurvey --file` keeps it, and writes the sources of its fields as one
table. Nothing of the survey is changed, but for the sums that --seal puts beside it.
"""
DATABASES = (".db", ".sqlite", ".sqlite3")
KINDS = {"i": "INTEGER", "f": "REAL", "U": "TEXT"}


def parser() -> argparse.ArgumentParser:
    """The command's options."""
    made = Parser(prog="python -m maxdetect survey", description=DESCRIPTION, allow_abbrev=False)
    made.add_argument("survey", metavar="SURVEY", help="the file of a survey")
    made.add_argument(
        "-o",
        "--output",
        metavar="TABLE",
        help="FITS, CSV, ECSV, VOTable or an SQLite database of a plain table, by the name's end",
    )
    made.add_argument("--field", action="append", metavar="NAME", help="this field alone; may be given several times")
    made.add_argument(
        "--sky", metavar="TABLE", help="a table with the columns FIELD and IMAGE, a file with a WCS: adds RA and DEC"
    )
    made.add_argument("--brightest", type=whole(1), metavar="K", help="the K sources of the greatest flux alone")
    made.add_argument("--seal", action="store_true", help="put a sum of each field's rows into the file")
    made.add_argument("--check", action="store_true", help="tell which fields changed since it was sealed")
    return made


def write_database(table: Table, path: str) -> None:
    """Writes a table as the table `sources` of an SQLite database of its own, with an index by field, by flux and,
    where it has them, by RA and DEC; an earlier file is replaced. Numbers that aren't finite are NULL. Raises Mistake
    where it can't be written.
    """
    kinds = ", ".join(f'"{name}" {KINDS[table[name].dtype.kind]}' for name in table.colnames)
    columns = [_plain_values(table[name]) for name in table.colnames]
    places = ", ".join("?" for _ in columns)
    with whole_file(path) as name, _told(path):
        with contextlib.closing(sqlite3.connect(name)) as connection, connection as writing:
            writing.execute(f"CREATE TABLE sources ({kinds}) STRICT")
            writing.executemany(f"INSERT INTO sources VALUES ({places})", zip(*columns))
            writing.execute("CREATE INDEX sources_by_field ON sources (FIELD, NUMBER)")
            writing.execute("CREATE INDEX sources_by_flux ON sources (FLUX)")
            if {"RA", "DEC"} <= set(table.colnames):
                writing.execute("CREATE INDEX sources_by_place ON sources (DEC, RA)")


@contextlib.contextmanager
def _told(path: str) -> Iterator[None]:
    """Whatever SQLite says of a file that can't be written, as one line."""
    try:
        yield
    except sqlite3.Error as error:
        raise Mistake(f"{path}: {survey_files.cause(error)}") from None


def _plain_values(column) -> list:
    values = numpy.asarray(column)
    if values.dtype.kind == "f":
        return [value if finite else None for value, finite in zip(values.tolist(), numpy.isfinite(values).tolist())]
    return values.tolist()


def _wanted(given: argparse.Namespace) -> Table:
    """The table that the words ask for."""
    opened = surveys.survey(given.survey)
    sky = None if given.sky is None else surveys.fields_of(given.sky)
    for name in given.field or []:
        if name not in opened:
            raise Mistake(f"{given.survey} has no field {name}")
    table = opened.table(given.field, sky) if given.brightest is None or given.field else None
    if given.brightest is None:
        return table
    return opened.brightest(given.brightest, sky) if table is None else _first(table, given.brightest)


def _first(table: Table, count: int) -> Table:
    """The rows of the greatest flux, in the order of fields and numbers where fluxes are equal."""
    return table[numpy.lexsort([table["NUMBER"], table["FIELD"], -numpy.asarray(table["FLUX"])])[:count]]


def _listed(table: Table) -> None:
    """A line for each field: its name, how many sources it has, and the sum of their fluxes."""
    for name in sorted(set(table["FIELD"].tolist())):
        fluxes = table["FLUX"][table["FIELD"] == name].tolist()
        print(name, len(fluxes), sum(fluxes))


def run(words: Optional[List[str]] = None) -> bool:
    """Does what the words say; False where --check finds a change. Raises Mistake."""
    given = parser().parse_args(words)
    if given.output is not None and pathlib.Path(given.output).suffix.lower() not in DATABASES:
        tables.format_of(given.output)
    if given.output is not None and os.path.exists(given.output) and os.path.samefile(given.output, given.survey):
        raise Mistake(f"{given.output} is read, so it can't be written")
    changed = surveys.survey(given.survey).changed() if given.check else []
    for name in changed:
        print(f"changed: {name}")
    if given.seal:
        print(f"{surveys.survey(given.survey).seal()} fields sealed")
    if given.output is None and (given.check or given.seal):
        return not changed
    table = _wanted(given)
    if given.output is None:
        _listed(table)
    elif pathlib.Path(given.output).suffix.lower() in DATABASES:
        write_database(table, given.output)
    else:
        tables.write(table, given.output)
    if given.output is not None:
        print(f"{len(table)} sources of {len(set(table['FIELD'].tolist()))} fields in {given.output}")
    return not changed
