"""From a catalogue of `maxcat` to a field of a survey: what `maxsurvey` reads of it, and the call that adds it."""
import io
import os
import re
import shutil
import sqlite3
import subprocess
import time
from typing import List, Optional, Tuple, Union

import numpy
from astropy.io import fits
from astropy.table import Table

from . import _survey_files as survey_files, _surveys as surveys
from ._columns import CATALOGUE
from ._errors import Mistake
from ._kernel import NoProgram, find_program

__all__ = ["add", "survey_file"]

GREATEST = 2**62
# What a database may have that keeps maxsurvey out, as the man page lists it; of views nothing is told.
STRANGE = """
    SELECT type, name FROM sqlite_master WHERE type = 'trigger'
    AND (tbl_name LIKE 'source' OR tbl_name IN (SELECT name FROM sqlite_master WHERE type = 'view'))
    UNION ALL SELECT 'virtual table', name FROM sqlite_master WHERE sql LIKE 'CREATE VIRTUAL%'
    UNION ALL SELECT 'index', name FROM pragma_index_list('source') AS list
    WHERE partial OR EXISTS (SELECT 1 FROM pragma_index_info(list.name) WHERE cid < 0)
    UNION ALL SELECT 'auto_vacuum', '' FROM pragma_auto_vacuum WHERE auto_vacuum
    UNION ALL SELECT 'encoding', encoding FROM pragma_encoding WHERE encoding <> 'UTF-8'
    UNION ALL SELECT 'foreign key without a partner in table', "table" FROM pragma_foreign_key_check
    UNION ALL SELECT 'table source of another form', '' FROM (SELECT group_concat(
        name || type || "notnull" || ifnull(dflt_value, '-') || pk || hidden) AS form FROM pragma_table_xinfo('source'))
    WHERE form <> 'fieldTEXT1-10,cellsBLOB1-00'
"""
# The status that tells no cause: the tables couldn't be kept.
KEEPER = 6
CAUSES = {
    3: "the catalogue couldn't be read",
    4: "its output failed",
    5: "memory is wanted",
    KEEPER: "the file couldn't be opened or written",
}


def _whole_fluxes(table: Table, unit: float) -> numpy.ndarray:
    """The fluxes in units of `unit`, as whole numbers."""
    fluxes = numpy.ma.asarray(table["FLUX_ISO" if "FLUX_ISO" in table.colnames else "FLUX"]).filled(0)
    # The program's own are whole, and may have more digits than a floating-point number.
    if fluxes.dtype.kind != "i" or unit != 1:
        fluxes = numpy.rint(fluxes.astype("f8") / unit)
    if not numpy.all((-GREATEST < fluxes) & (fluxes < GREATEST)):
        raise Mistake(f"a flux is no whole number of {unit:g} below 2^62; name another --survey-unit")
    return fluxes.astype("i8")


def survey_file(table: Table, unit: float = 1.0) -> bytes:
    """A catalogue as the bytes that `maxsurvey add` reads: the form of `maxdetect detect`, without its map.

    FLUX is FLUX_ISO, the sum above the background over the source's pixels, in whole numbers of `unit`, which is in the
    image's units; so fields whose noise differs can be ranked together. LEVEL, BASE and PEAK stay as the program saw
    them. Rows are numbered anew, from 1.
    """
    columns = []
    for name, column in CATALOGUE.items():
        if name == "NUMBER":
            values = numpy.arange(1, len(table) + 1)
        else:
            values = _whole_fluxes(table, unit) if name == "FLUX" else numpy.asarray(table[name])
        wide = "i8" if column.form == "K" else "i4"
        columns.append(fits.Column(name, column.form, array=values.astype(wide)))
    catalogue = fits.BinTableHDU.from_columns(columns, nrows=len(table), name="SOURCES")
    written = io.BytesIO()
    fits.HDUList([fits.PrimaryHDU(), fits.ImageHDU(numpy.zeros((1, 1), "i4")), catalogue]).writeto(written)
    return written.getvalue()


def _why(path: str) -> str:
    """What keeps maxsurvey from a survey's file, as far as it can be told from outside."""
    folder = os.path.dirname(os.path.abspath(path))
    if not os.path.isdir(folder):
        return "there is no such folder"
    if not os.access(folder, os.W_OK) or (os.path.exists(path) and not os.access(path, os.W_OK)):
        return "the file, or its folder, can't be written"
    if shutil.disk_usage(folder).free < 2**20:
        return "there is no room on the disk"
    return _why_not_opened(path) if os.path.exists(path) else CAUSES[KEEPER]


def _why_not_opened(path: str) -> str:
    """The same of a file that is there and may be written."""
    connection = sqlite3.connect(path, timeout=0, isolation_level=None)
    try:
        # As maxsurvey does: beside nobody, readers among them.
        connection.execute("PRAGMA locking_mode = EXCLUSIVE")
        connection.execute("BEGIN IMMEDIATE")
        strange = connection.execute(STRANGE).fetchone()
        connection.execute("ROLLBACK")
        if strange:
            return f"it has the {' '.join(strange).strip()}, which maxsurvey doesn't understand"
        sound = connection.execute("PRAGMA quick_check(1)").fetchone()
        return CAUSES[KEEPER] if sound == ("ok",) else "it is damaged"
    except sqlite3.Error as error:
        return survey_files.cause(error)
    finally:
        connection.close()


def _answer(words: List[str], written: bytes, path: str) -> Tuple[int, str, str]:
    """The status of maxsurvey, its note, and the cause. It takes a file that nobody else has at that moment, so it is
    called again, for some seconds, where another process may have had it.
    """
    until, pause, was_busy = time.monotonic() + survey_files.PATIENCE, 0.01, False
    while True:
        done = subprocess.run(words, input=written, stdout=subprocess.DEVNULL, stderr=subprocess.PIPE, check=False)
        note = re.sub(r"\s+", " ", done.stderr.decode("utf-8", "replace")).strip()
        if done.returncode != KEEPER:
            return done.returncode, note, CAUSES.get(done.returncode, "refused")
        why = _why(path)
        was_busy |= why == survey_files.BUSY
        if why not in (survey_files.BUSY, CAUSES[KEEPER]) or time.monotonic() > until:
            return KEEPER, note, survey_files.BUSY if was_busy else why
        time.sleep(pause)
        pause = min(2 * pause, 0.3)


def add(
    path: Union[str, os.PathLike], field: str, table: Table, *, unit: float = 1.0, program: Optional[str] = None
) -> None:
    """Gives a catalogue to a field of a survey, through `maxsurvey`; what the field had is replaced.

    Other processes are waited for: without end those that add, some seconds those that read.

    Parameters
    ----------
    path : str or os.PathLike
        The survey's file, which is made where it isn't there.
    field : str
        The field's name: 1 to 16 letters, digits, underscores or hyphens.
    table : astropy.table.Table
        The catalogue, as `maxcat`, `catalogue` or `detect` gives it.
    unit : float, default: 1.0
        Fluxes are kept in whole numbers of this unit, which is in the image's units.
    program : str, optional
        The path of `maxsurvey`, by default that of `find_program`.

    Raises
    ------
    Mistake
        Where the name is none, the program isn't there, or it answers a fault; the survey is then as it was.
    """
    path = os.fspath(path)
    if not surveys.NAME.fullmatch(field):
        raise Mistake(f"{field!r} is no field's name: 1 to 16 letters, digits, underscores or hyphens")
    if os.path.isdir(path):
        raise Mistake(f"{path} is a folder")
    words = [find_program(program, "maxsurvey"), "--file", path, "add", field]
    written = survey_file(table, unit)
    with survey_files.alone(path):
        try:
            status, note, cause = _answer(words, written, path)
        except OSError as error:
            raise NoProgram(f"{words[0]} can't be run: {error.strerror}") from None
    if status != 0:
        raise Mistake(f"{path}: maxsurvey answers {note or status}: {cause}")
