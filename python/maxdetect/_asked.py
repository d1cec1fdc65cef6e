"""Words of `maxcat` that say what a catalogue has: its form, its columns, apertures and vignets."""
import argparse
import os
import pathlib
import re
from typing import TYPE_CHECKING, List, Optional, Tuple

from ._errors import Mistake
from ._limits import CHECKS, FORMATS, KINDS, LISTS, RANGES
from ._words import called, finite, several, within

if TYPE_CHECKING:
    from ._rows import Rows

__all__ = ["add", "add_read", "add_run", "check", "is_known", "listed", "names_of", "picked"]

# The side of a vignet; for none the option is left out.
side = within(RANGES["vignet"]._replace(or_zero=False))
BAND = re.compile("[A-Za-z0-9]{1,8}")
# So many names that aren't known are told.
SHOWN = 8
# A name in a file of parameters of Source Extractor's: with the sides of a vector behind it, or without.
NAME = re.compile(r"([A-Za-z][A-Za-z0-9_]*)(?:\(([\d, ]*)\))?")


def add(out) -> None:
    """The options that say what a catalogue has, and what is written beside it."""
    _add_form(out)
    _add_measures(out)
    out.add_argument(
        "--check",
        type=check_images,
        metavar="KIND,KIND,...",
        help="check images beside the catalogue, as CATALOGUE.background.fits: " + ", ".join(CHECKS),
    )
    out.add_argument(
        "--vignet", type=side, metavar="N", help="adds the column VIGNET: N x N pixels around each source, for PSFEx"
    )


def _add_form(out) -> None:
    """The form of a catalogue, and its columns."""
    out.add_argument(
        "--format",
        choices=sorted(set(FORMATS.values())),
        help="the catalogue's form, whatever its name; ldac: FITS_LDAC with Source Extractor's columns, for SCAMP and "
        "PSFEx (default: by the name's end)",
    )
    out.add_argument(
        "--like-sextractor",
        metavar="FILE",
        help="take the settings of a file of Source Extractor's, as far as they mean something here; a line on "
        "standard error names the others; options that are given go before",
    )
    out.add_argument(
        "--columns",
        metavar="NAMES|FILE",
        help="the columns that are wanted, parted by commas, or a file with a name on each line; Source Extractor's "
        "names count too (default: all)",
    )


def _add_measures(out) -> None:
    """The apertures in which light is summed."""
    out.add_argument(
        "--apertures",
        type=several(LISTS["apertures"], "list of diameters", ", parted by commas"),
        default=(10.0,),
        metavar="D,D,...",
        help="the diameters in pixels of the circles of FLUX_APER (default: 10)",
    )
    out.add_argument(
        "--kron",
        type=several(LISTS["kron"], "two numbers"),
        default=(2.5, 3.5),
        metavar="K,LEAST",
        help="how many Kron radii the ellipse of FLUX_AUTO reaches, and how many deviations of the light at least "
        "(default: 2.5,3.5, as Source Extractor)",
    )


@called("list of check images")
def check_images(text: str) -> List[str]:
    """The kinds of check images, parted by commas."""
    found = list(dict.fromkeys(each.strip() for each in text.split(",")))
    unknown = [kind for kind in found if kind not in CHECKS]
    if unknown:
        raise argparse.ArgumentTypeError(f"{', '.join(unknown) or 'it'} isn't among {', '.join(CHECKS)}")
    return found


@called("NAME=FILE")
def banded(text: str) -> Tuple[str, str]:
    """A band's name and what belongs to it."""
    name, equals, rest = text.partition("=")
    if not BAND.fullmatch(name) or not equals or not rest:
        raise argparse.ArgumentTypeError(f"{text} isn't NAME=FILE, with a name of 1 to 8 letters and digits")
    return name, rest


@called("NAME=Z")
def banded_number(text: str) -> Tuple[str, float]:
    """A band's name and a number."""
    name, rest = banded(text)
    return name, finite()(rest)


def add_read(what) -> None:
    """The options that say what is measured in, and which maps belong to it."""
    kinds = {
        "choices": KINDS,
        "help": "what they have, and --band-weight (default: weight)",
    }
    what.add_argument("--measure-weight", metavar="FILE[:HDU]", help="a map of the noise of --measure's image")
    what.add_argument("--measure-weight-type", **kinds)
    what.add_argument(
        "--band",
        type=banded,
        action="append",
        metavar="NAME=FILE[:HDU]",
        help="a further image of the same pixels, in which the same sources are measured: adds columns such as "
        "FLUX_TOTAL_NAME; it may be given several times",
    )
    what.add_argument(
        "--band-weight", type=banded, action="append", metavar="NAME=FILE[:HDU]", help="a map of a band's noise"
    )
    what.add_argument(
        "--band-zeropoint",
        type=banded_number,
        action="append",
        metavar="NAME=Z",
        help="a band's zero point (default: --zeropoint's)",
    )
    what.add_argument(
        "--flag-map",
        metavar="FILE[:HDU]",
        help="a map of whole numbers; the bits over a source's pixels are its IMAFLAGS",
    )


def add_run(how) -> None:
    """The options that say where the work is done, and which of it."""
    how.add_argument(
        "--scheduler",
        metavar="ADDRESS",
        help="a scheduler of Dask's, as tcp://host:8786, whose workers take the tiles; they see the same files",
    )
    how.add_argument(
        "--resume",
        action="store_true",
        help="pass by the images whose outputs are all there and no older than what they are made of",
    )


def check(given: argparse.Namespace) -> None:
    """Raises Mistake for options that don't go together."""
    names = [name for name, _ in given.band or []]
    if len(set(names)) < len(names):
        raise Mistake("--band has one name twice")
    for option, pairs in (("--band-weight", given.band_weight), ("--band-zeropoint", given.band_zeropoint)):
        for name, _ in pairs or []:
            if name not in names:
                raise Mistake(f"{option} is for the band {name}, which no --band names")
    if given.resume and given.survey:
        raise Mistake("--resume and --survey exclude each other: a survey doesn't say which images it has")
    if given.measure_weight and not given.measure:
        raise Mistake("--measure-weight wants a --measure")
    if given.measure_weight_type and not (given.measure_weight or given.band_weight):
        raise Mistake("--measure-weight-type wants a --measure-weight or a --band-weight")
    for name in ("measure_weight", "flag_map"):
        if getattr(given, name) == "":
            raise Mistake(f"--{name.replace('_', '-')} has an empty name")


def listed(text: str) -> List[str]:
    """The names with their sides, as they stand in the option or in its file."""
    if not os.path.isfile(text):
        return [each.strip() for each in re.split(r",(?![^()]*\))", text) if each.strip()]
    try:
        lines = pathlib.Path(text).read_text(encoding="ascii").splitlines()
    except (OSError, UnicodeDecodeError):
        raise Mistake(f"--columns: {text} can't be read as a list of names") from None
    return [line.split("#")[0].split()[0] for line in lines if line.split("#")[0].strip()]


def is_known(text: str) -> bool:
    """The package or Source Extractor calls a column so that the package has."""
    from . import _finishing as finishing, _ldac as ldac

    match = NAME.fullmatch(text)
    if match is None:
        return False
    name = match[1]
    plain = re.sub(r"^MAG(ERR)?_", r"FLUX\1_", name)
    return name in ldac.COLUMNS or any(it in finishing.COLUMNS for it in (plain, plain.rpartition("_")[0]))


def names_of(given: argparse.Namespace) -> Optional[List[str]]:
    """The columns that are wanted, or None for all; a vignet among them says how large it is, where nothing else does.
    Raises Mistake for names that are no column's.
    """
    if given.columns is None:
        return None
    texts = listed(given.columns)
    unknown = [text for text in texts if not is_known(text)]
    if unknown:
        more = f" and {len(unknown) - SHOWN} more" if len(unknown) > SHOWN else ""
        raise Mistake(f"--columns: maxcat has no {', '.join(unknown[:SHOWN])}{more}")
    matches = [match for match in map(NAME.fullmatch, texts) if match]
    if not matches:
        raise Mistake(f"--columns: {given.columns or 'it'} has no name")
    for match in matches:
        if match[1] == "VIGNET" and not given.vignet:
            try:
                given.vignet = side((match[2] or "").split(",")[0])
            except (ValueError, argparse.ArgumentTypeError):
                raise Mistake("--columns: VIGNET wants its side, an odd number, by --vignet N") from None
    return list(dict.fromkeys(match[1] for match in matches))


def picked(table: "Rows", names: Optional[List[str]]) -> "Rows":
    """A catalogue's columns of these names, the package's own or else Source Extractor's; all where there are no names.
    Raises Mistake where it hasn't one of them.
    """
    if names is None:
        return table
    from . import _ldac as ldac

    made = table[[]]
    for name in names:
        if name in table.colnames:
            made[name] = table[name]
            made.describe(name, table.units.get(name), table.texts.get(name, ""))
            continue
        values = ldac.column(name, table)
        if values is None:
            raise Mistake(f"--columns: this image's sources have no {name}{_wanting(name)}")
        made[name] = values
        made.describe(name, ldac.COLUMNS[name].unit, ldac.COLUMNS[name].text)
    return made


def _wanting(name: str) -> str:
    """What would give a column of this name."""
    if name.startswith(("MAG", "MU_")):
        return " (they want --zeropoint, and MU_MAX a WCS)"
    return " (IMAFLAGS wants --flag-map, others a WCS)"
