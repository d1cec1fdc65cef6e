"""The program's calls: sources of an integer image by its max-tree, as numpy arrays and astropy tables.

Each call starts the built program once; the bytes stay in memory where the system has files there. Wanted are numpy
and astropy. The program is the one that `program=` names, else the one that the environment's MAXDETECT names, else
the package's own `bin/maxdetect` where it was installed with one, else `maxdetect` on the PATH, else the repository's
own, which is then proved and built first where it isn't there yet.

An image is a two-dimensional array of whole numbers of any integer type, row by row: `image[y, x]`, as astropy reads
it. Pixels that are masked (a numpy masked array) or have the value `blank` are undefined: they belong to no source.
All other values lie from -2^36 to 2^36. For an image of floating-point numbers see `maxdetect.scaling`.

>>> import numpy
>>> image = numpy.array([[1, 6, 2, 5, 1]])
>>> catalogue, segments = detect(image, 2, contrast=300)
>>> segments.tolist()
[[0, 1, 0, 2, 0]]
>>> for source in catalogue:
...     print(source["NUMBER"], source["XFIRST"], source["BASE"], source["AREA"], source["FLUX"], source["XCEN"])
1 2 2 1 4 2000
2 4 2 1 3 4000

`catalogue` and `segments` are those of the command `maxdetect detect --threshold 2 --contrast 300`.
"""
import itertools
import math
import os
import pathlib
import re
import shutil
import subprocess
import tempfile
from typing import TYPE_CHECKING, BinaryIO, Optional, Tuple, Union

import numpy
from astropy.io import fits

from ._columns import DESCRIPTIONS
from ._docs import described
from ._errors import Mistake
from ._maps import bands
from ._rows import Rows
from ._stored import meaning, raw, sums
from ._wholenumbers import LEAST, fits_of, fits_of_stored, undefined_of, whole_number

if TYPE_CHECKING:
    from astropy.table import Table

__all__ = ["LEAST", "NoProgram", "Refusal", "detect", "filter", "find_program", "load", "measure", "read", "tree"]

# Asks the C library (glibc from 2.35 on) for large pages, since arrays of a word a pixel come from the system page by
# page, and for one heap, whatever the threads.
LARGE_PAGES = "glibc.malloc.hugetlb=1:glibc.malloc.arena_max=1"
# The least array that goes back to the system as soon as it is freed, and how much free memory the heap keeps. For a
# small image, of which many may follow each other, clearing pages again costs more than the memory is worth.
SMALL_IMAGES = "glibc.malloc.mmap_threshold=8388608:glibc.malloc.trim_threshold=4294967296"
LARGE_IMAGES = "glibc.malloc.mmap_threshold=2097152:glibc.malloc.trim_threshold=2097152"
LARGE_INPUT = 16 << 20

Path = Union[str, os.PathLike]

# What each refusal of an input means, by its number.
FAULTS = {
    1: "the input doesn't begin with SIMPLE",
    2: "the input ends within a header",
    3: "a mandatory card is missing or can't be read",
    4: "36,000 cards without END",
    5: "random groups",
    6: "an HDU with more than 2^40 data bytes",
    7: "the file has no HDU of this number",
    8: "the input ends within an HDU before the chosen one",
    10: "the HDU is no image",
    11: "the image has no pixels, or more than two axes",
    12: "a side above 65,535 pixels, or more than 16,777,216 pixels (maxwide: 2,147,483,647)",
    13: "the image's BITPIX isn't read",
    14: "BSCALE isn't 1",
    15: "BZERO isn't a whole number within 2^32",
    16: "BLANK isn't a whole number",
    17: "the input ends within the image",
    18: "a value lies outside -2^36 to 2^36, or -2^29 to 2^29 in more than 16,777,216 pixels",
    19: "the two images differ in width or height",
}


class Refusal(Mistake):
    """The program ended without an answer.

    Parameters
    ----------
    status : int or None
        The program's exit status: 1 an option's value is out of its range, 2 the image is refused, 3 a read failed, 4 a
        write failed, 5 memory is wanted; None where a signal ended the program or what it wrote is cut short.
    number : int or None
        For an image that is refused the number of its first fault, as in the man page; for an option the place of the
        word at fault; else None.
    name : str
        The fault's name: that of the man page for an image that is refused, "usage" for an option, "killed" where a
        signal ended the program, "truncated" where what it wrote is cut short.
    text : str
        What it means.

    Attributes
    ----------
    status, number, name, text
        What was given.

    Examples
    --------
    >>> import numpy
    >>> try:
    ...     tree(numpy.zeros((1, 70000), dtype="u1"))
    ... except Refusal as refusal:
    ...     print(refusal.status, refusal.number, refusal.name)
    2 12 ImageTooLarge
    >>> try:
    ...     tree(numpy.zeros((2, 2), dtype="u1"), connect=6)
    ... except Refusal as refusal:
    ...     print(refusal)
    usage: connect isn't given a value that it takes
    """

    def __init__(self, status: Optional[int], number: Optional[int], name: str, text: str):
        super().__init__(f"{name}: {text}")
        self.status, self.number, self.name, self.text = status, number, name, text

    def __reduce__(self):
        return type(self), (self.status, self.number, self.name, self.text)


class NoProgram(Mistake, FileNotFoundError):
    """The program isn't where it was looked for, or can't be run."""


def find_program(program: Optional[Path] = None, name: str = "maxdetect") -> str:
    """The path of a program of the project.

    It is `program`, or where the environment (MAXDETECT for `maxdetect`), the package, the PATH or the repository has
    it; the repository's own is proved and built first where it isn't there yet.

    Parameters
    ----------
    program : str or os.PathLike, optional
        The path that goes before all others.
    name : {"maxdetect", "maxwide", "maxsurvey"}, default: "maxdetect"
        Which program.

    Returns
    -------
    str
        The path.

    Raises
    ------
    NoProgram
        Where no program is found, or it can't be built.
    """
    variable = name.upper()
    named = program or os.environ.get(variable)
    if named:
        return os.fspath(named)
    package = pathlib.Path(__file__).resolve().parent
    found = shutil.which(package / "bin" / name) or shutil.which(name)
    if found:
        return os.fspath(found)
    top = package.parent.parent
    build = top / "scripts" / "build"
    if not build.exists():
        raise NoProgram(f"{name} isn't on the PATH; name it by program= or in the environment's {variable}")
    if _run_build(build, name) != 0:
        raise NoProgram(f"{build} didn't make {name}; name one by program= or in the environment's {variable}")
    return os.fspath(top / "crates" / name / "out" / name)


def _run_build(build: Path, name: str) -> int:
    """Runs scripts/build, which tells on standard error that it proves and builds, and how long that takes; its status.
    It ends with the caller, and the crates that it is proving end with it.
    """
    with subprocess.Popen([build, name], stdin=subprocess.DEVNULL, stdout=subprocess.DEVNULL) as building:
        try:
            return building.wait()
        except BaseException:
            building.terminate()
            raise


def words_of(command, options):
    """The words of a command: its name, then each option and its value."""
    words = [command]
    for name, value in options.items():
        words += ["--" + name.replace("_", "-"), value if name == "rule" else str(whole_number(name, value))]
    return words


def _refusal(words, status, note):
    """The exception for a status and its line on standard error."""
    usage, refused = re.fullmatch(r"usage: word (\d+)", note), re.fullmatch(r"refused: (\d+) (\S+)(.*)", note)
    if status == 1 and usage:
        number = int(usage[1])
        option = words[number - 2] if 2 <= number <= len(words) else ""
        text = f"{option.lstrip('-').replace('-', '_')} isn't given a value that it takes"
        return Refusal(status, number, "usage", text if option.startswith("--") else note)
    if status == 2 and refused:
        text = FAULTS.get(int(refused[1]), "the input is refused") + refused[3]
        return Refusal(status, int(refused[1]), refused[2], text)
    if status < 0:
        return Refusal(None, None, "killed", f"signal {-status} ended the program")
    if status in (3, 4, 5):
        return Refusal(status, None, note, "nothing was made")
    return Refusal(status, None, "failed", f"the program ended with status {status}: {' '.join(note.split())}")


def _environment(size):
    """The program's environment for an input of so many bytes: its own pages of memory, unless the caller's
    GLIBC_TUNABLES says otherwise.
    """
    kept = SMALL_IMAGES if size < LARGE_INPUT else LARGE_IMAGES
    return {"GLIBC_TUNABLES": f"{LARGE_PAGES}:{kept}", **os.environ}


def in_memory():
    """A file without a name that is open for writing and reading, in memory where the system can."""
    return os.fdopen(os.memfd_create("maxdetect"), "w+b") if hasattr(os, "memfd_create") else tempfile.TemporaryFile()


def run(words, pieces, program=None, name="maxdetect"):
    """What a program writes for these words and the pieces of its input, as a file that is open for reading."""
    with in_memory() as file:
        for piece in pieces:
            file.write(piece)
        return answered(words, file, program, name)


def answered(words, file, program=None, name="maxdetect"):
    """The same for an input that stands in a file."""
    file.seek(0)
    path = find_program(program, name)
    own = _environment(os.fstat(file.fileno()).st_size)
    with in_memory() as output:
        try:
            result = subprocess.run(
                [path, *words], stdin=file, stdout=output, stderr=subprocess.PIPE, env=own, check=False
            )
        except OSError as error:
            raise NoProgram(f"{path} can't be run: {error.strerror}") from None
        if result.returncode != 0:
            raise _refusal(words, result.returncode, result.stderr.decode("utf-8", "replace").strip())
        output.seek(0)
        return os.fdopen(os.dup(output.fileno()), "rb")


def _native(array):
    """An array in this machine's order of bytes."""
    return numpy.ascontiguousarray(array, dtype=array.dtype.newbyteorder("="))


def load(file: Union[Path, BinaryIO], hdu: Union[int, str] = 0) -> numpy.ndarray:
    """The image of an HDU with its whole numbers as they stand in the file, BZERO added.

    astropy by itself makes floating-point numbers of an image with a BLANK or a BZERO.

    Parameters
    ----------
    file : str, os.PathLike or binary file
        The FITS file.
    hdu : int or str, default: 0
        The HDU's number, from 0, or its name.

    Returns
    -------
    numpy.ndarray of int, shape (height, width)
        The image; a masked array where the header has a BLANK.

    Raises
    ------
    ValueError
        Where the HDU has no two-dimensional image of whole numbers.
    OSError
        Where astropy can't read the file; it raises other errors too.
    """
    with fits.open(file, memmap=False, do_not_scale_image_data=True) as hdus:
        means = meaning(hdus[hdu]) if hdus[hdu].is_image else None
        numbers = raw(hdus[hdu])
    if means is None or numbers is None or numbers.ndim != 2 or numbers.dtype.kind not in "iu" or not means.is_whole:
        raise ValueError("not a two-dimensional image of whole numbers; maxdetect.scaling makes one of others")
    values = sums(numbers, int(means.zero), means.blank)
    return values if means.blank is None else numpy.ma.MaskedArray(values, mask=numbers == means.blank)


def _read_rows(file):
    """The same as plain arrays."""
    with fits.open(file, memmap=False) as hdus:
        rows, names = hdus["SOURCES"].data, hdus["SOURCES"].columns.names
        return Rows({name: _native(rows[name]) for name in names}), _native(hdus["SEGMENT"].data)


def sources_of(output: BinaryIO, segments: numpy.ndarray) -> Rows:
    """The rows of what a program wrote just now, as plain arrays; the map goes into an array of its shape."""

    def reading(hdus):
        header, place = hdus["SEGMENT"]
        if segments.shape != (header["NAXIS2"], header["NAXIS1"]):
            raise ValueError("a map of another image")
        for band in bands(segments):
            part = segments[band]
            part[...] = numbers_at(output, place, numpy.dtype(">i4"), part.size).reshape(part.shape)
            place += 4 * part.size
        return rows_in(output, hdus)

    return answer(output, reading)


def rows_in(output: BinaryIO, hdus) -> Rows:
    """The rows of a table that a program wrote, as plain arrays."""
    # Read as it stands, since astropy loads its tables for one.
    header, place = hdus["SOURCES"]
    fields = [
        (header[f"TTYPE{number}"], {"J": ">i4", "K": ">i8"}[header[f"TFORM{number}"]])
        for number in range(1, header["TFIELDS"] + 1)
    ]
    rows = numbers_at(output, place, numpy.dtype(fields), header["NAXIS2"])
    return Rows({name: _native(rows[name]) for name, _ in fields})


def numbers_at(file: BinaryIO, place: int, dtype: numpy.dtype, count: int) -> numpy.ndarray:
    """So many numbers of a kind at a place of a file. Raises ValueError where it has fewer."""
    file.seek(place)
    found = numpy.fromfile(file, dtype, count)
    if len(found) != count:
        raise ValueError("the file ends within an HDU")
    return found


def catalogue_of(rows: Rows) -> "Table":
    """A catalogue of the program as astropy's table, with what its columns are."""
    table = rows.table()
    for name in table.colnames:
        table[name].description = DESCRIPTIONS.get(name, "")
    return table


def read(file: Union[Path, BinaryIO]) -> Tuple["Table", numpy.ndarray]:
    """The catalogue and the segmentation map of what `maxdetect detect` or `measure` wrote.

    Parameters
    ----------
    file : str, os.PathLike or binary file
        The FITS file. Of another file it raises what astropy raises.

    Returns
    -------
    catalogue : astropy.table.Table
        A row for each source, as `detect` has them.
    segments : numpy.ndarray of int32, shape (height, width)
        The number of the source to which each pixel belongs, or 0.
    """
    rows, segments = _read_rows(file)
    return catalogue_of(rows), segments


def answer(output, reading):
    """What a program wrote just now, as it is read from its HDUs: of each, by its EXTNAME, the header and where its
    data begin. Raises ValueError itself where it is no answer to what was asked.
    """
    with output:
        try:
            return reading({header.get("EXTNAME"): (header, place) for header, place in _hdus(output)})
        except (OSError, EOFError, KeyError, ValueError, TypeError, IndexError, AttributeError, fits.VerifyError):
            text = "what the program wrote is cut short, no FITS file, or of another image"
            raise Refusal(None, None, "truncated", text) from None


def _hdus(file):
    """The headers of a file's HDUs, each with the place where its data begin. Raises ValueError where the file ends
    within one: astropy would warn and read on, and threads can't catch warnings.
    """
    size, place, found = os.fstat(file.fileno()).st_size, 0, []
    file.seek(0)
    while place < size:
        header = fits.Header.fromfile(file)
        sides = [header[f"NAXIS{axis}"] for axis in range(1, header["NAXIS"] + 1)]
        found.append((header, file.tell()))
        place = file.tell() - (-(abs(header["BITPIX"]) // 8 * math.prod(sides) if sides else 0) // 2880) * 2880
        file.seek(place)
    if place != size or not size:
        raise ValueError("the file ends within an HDU")
    file.seek(0)
    return found


def _plane(file, hdus, shape):
    """The values of what `maxdetect filter` wrote of an image of this shape."""
    header, place = hdus[None]
    if (header["NAXIS2"], header["NAXIS1"]) != shape:
        raise ValueError("a plane of another image")
    return _native(numbers_at(file, place, numpy.dtype(">i8"), math.prod(shape)).reshape(shape))


def _detected(words, pieces, shape, program):
    """The rows and the map that the program finds."""
    output, segments = run(words, pieces, program), numpy.empty(shape, "i4")
    return sources_of(output, segments), segments


@described
def detect(
    image: numpy.ndarray,
    threshold: int,
    *,
    min_area: int = 1,
    min_flux: int = 0,
    contrast: int = 5,
    mesh: int = 0,
    flat: bool = False,
    connect: int = 4,
    strips: int = 1,
    workers: int = 1,
    blank: Optional[int] = None,
    program: Optional[Path] = None,
) -> Tuple["Table", numpy.ndarray]:
    """The sources of an image of whole numbers: their catalogue, and their segmentation map.

    The defaults are those of the command `maxdetect detect`; for noisy images docs/GUIDE.md has better ones.

    Parameters
    ----------
    image : numpy.ndarray of int, shape (height, width)
        The image, with values from -2^36 to 2^36. Pixels that are masked are undefined, and belong to no source.
    {threshold}
    {min_area}
    {min_flux}
    {contrast}
    {mesh}
    {flat}
    {connect}
    {strips}
    {workers}
    {blank}
    {program}

    Returns
    -------
    catalogue : astropy.table.Table
        A row for each source, with the columns of the command, all of them whole numbers: positions count pixels from
        1, XCEN and YCEN are in thousandths of a pixel, XVAR, YVAR and XYCOV in thousandths of a square pixel.
    segments : numpy.ndarray of int32, shape (height, width)
        The number of the source to which each pixel belongs, or 0.

    Raises
    ------
    ValueError
        Where the image hasn't two dimensions, or values lie too far from 0.
    TypeError
        Where the image or an option hasn't whole numbers.
    Refusal
        Where the program refuses the image or an option.
    NoProgram
        Where the program isn't found.

    Examples
    --------
    >>> import numpy
    >>> image = numpy.full((5, 6), 10)
    >>> image[1:4, 1:4] = [[20, 20, 20], [20, 50, 20], [20, 20, 20]]
    >>> catalogue, segments = detect(image, 15)
    >>> print(segments)
    [[0 0 0 0 0 0]
     [0 1 1 1 0 0]
     [0 1 1 1 0 0]
     [0 1 1 1 0 0]
     [0 0 0 0 0 0]]
    >>> source = catalogue[0]
    >>> print(source["AREA"], source["BASE"], source["FLUX"], source["XCEN"] / 1000, source["YCEN"] / 1000)
    9 10 120 3.0 3.0
    """
    options = dict(threshold=threshold, min_area=min_area, min_flux=min_flux, contrast=contrast)
    options.update(mesh=mesh, flat=int(flat), connect=connect, strips=strips, workers=workers)
    rows, segments = _detected(words_of("detect", options), fits_of(image, blank), numpy.shape(image), program)
    return catalogue_of(rows), segments


def detect_stored(
    stored: numpy.ndarray, threshold: int, *, program: Optional[Path] = None, **options: int
) -> Tuple[Rows, numpy.ndarray]:
    """The same as `detect` of an array of 32-bit numbers in which LEAST stands for an undefined pixel, without a look
    at its range, as plain arrays.
    """
    words = words_of("detect", {"threshold": threshold, **options})
    return _detected(words, fits_of_stored(stored), stored.shape, program)


@described
def measure(
    image: numpy.ndarray,
    values: numpy.ndarray,
    threshold: int,
    *,
    min_area: int = 1,
    min_flux: int = 0,
    contrast: int = 5,
    mesh: int = 0,
    flat: bool = False,
    connect: int = 4,
    strips: int = 1,
    workers: int = 1,
    blank: Optional[int] = None,
    program: Optional[Path] = None,
) -> Tuple["Table", numpy.ndarray]:
    """The sources of an image, measured in a second image of the same pixels, such as another band.

    Parameters
    ----------
    image : numpy.ndarray of int, shape (height, width)
        The image in which sources are found, as that of `detect`.
    values : numpy.ndarray of int, shape (height, width)
        The image in which they are measured.
    {threshold}
    {min_area}
    {min_flux}
    {contrast}
    mesh : int, default: 0
        The side of the square cells by which the background of both images is told, in pixels; 0 for none.
    flat : bool, default: False
        Takes the backgrounds in steps, one for each cell.
    {connect}
    {strips}
    {workers}
    blank : int, optional
        The value of further pixels that are undefined, in both images.
    {program}

    Returns
    -------
    catalogue : astropy.table.Table
        What `detect` gives, with seven columns more: SEEN and MISSING count the source's pixels that have a value in
        the second image and that have none; VSUM, VLOW and VPEAK are the sum, the least and the greatest of these
        values; VMEAN is their mean, and VBACK that around the source, both in thousandths.
    segments : numpy.ndarray of int32, shape (height, width)
        The number of the source to which each pixel belongs, or 0.

    Raises
    ------
    ValueError
        Where an image hasn't two dimensions, or values lie too far from 0.
    TypeError
        Where an image or an option hasn't whole numbers.
    Refusal
        Where the program refuses an image or an option.
    NoProgram
        Where the program isn't found.

    Examples
    --------
    >>> import numpy
    >>> image = numpy.array([[1, 6, 2, 5, 1]])
    >>> values = numpy.ma.masked_equal([[10, 20, 255, 40, 7]], 255)
    >>> catalogue, segments = measure(image, values, 2, contrast=301)
    >>> for name in ["SEEN", "MISSING", "VSUM", "VMEAN", "VBACK"]:
    ...     print(name, catalogue[name][0])
    SEEN 2
    MISSING 1
    VSUM 60
    VMEAN 30000
    VBACK 8500
    """
    options = dict(values=1, threshold=threshold, min_area=min_area, min_flux=min_flux, contrast=contrast)
    options.update(mesh=mesh, flat=int(flat), connect=connect, strips=strips, workers=workers)
    pieces = itertools.chain(fits_of(image, blank), fits_of(values, blank, extension=True))
    rows, segments = _detected(words_of("measure", options), pieces, numpy.shape(image), program)
    return catalogue_of(rows), segments


@described
def filter(
    image: numpy.ndarray,
    rule: str,
    *,
    min_area: int = 0,
    max_area: int = 16777216,
    min_flux: int = 0,
    min_fill: int = 0,
    mesh: int = 0,
    flat: bool = False,
    connect: int = 4,
    strips: int = 1,
    workers: int = 1,
    blank: Optional[int] = None,
    program: Optional[Path] = None,
) -> numpy.ndarray:
    """The image with some nodes of its tree taken out.

    A node satisfies where its area, its flux and its filling are within the bounds. With the defaults all nodes stay,
    so `filter(image, "direct", mesh=64)` is the image less its background.

    Parameters
    ----------
    image : numpy.ndarray of int, shape (height, width)
        The image, as that of `detect`.
    rule : {"min", "max", "direct", "subtractive"}
        What becomes of the nodes that don't satisfy.
    min_area : int, default: 0
        The least area, in pixels.
    max_area : int, default: 16777216
        The greatest area, in pixels.
    min_flux : int, default: 0
        The least flux, in the image's units times pixels.
    min_fill : int, default: 0
        Which part of its box a node fills at least, in thousandths.
    {mesh}
    {flat}
    {connect}
    {strips}
    {workers}
    {blank}
    {program}

    Returns
    -------
    numpy.ndarray of int64, shape (height, width)
        The image that is left: a masked array where `image` is one or `blank` is given, with the undefined pixels
        masked, and else an ordinary array.

    Raises
    ------
    ValueError
        Where the image hasn't two dimensions, or values lie too far from 0.
    TypeError
        Where the image or an option hasn't whole numbers.
    Refusal
        Where the program refuses the image or an option.
    NoProgram
        Where the program isn't found.

    Examples
    --------
    >>> import numpy
    >>> filter(numpy.array([[0, 1, 3, 2, 0]]), "direct", min_area=2).tolist()
    [[0, 1, 2, 2, 0]]
    """
    options = dict(rule=rule, min_area=min_area, max_area=max_area, min_flux=min_flux, min_fill=min_fill)
    options.update(mesh=mesh, flat=int(flat), connect=connect, strips=strips, workers=workers)
    output = run(words_of("filter", options), fits_of(image, blank), program)
    values = answer(output, lambda hdus: _plane(output, hdus, numpy.shape(image)))
    if blank is None and not isinstance(image, numpy.ma.MaskedArray):
        return values
    undefined = undefined_of(image, blank)
    return numpy.ma.MaskedArray(values, mask=numpy.zeros(values.shape, dtype=bool) if undefined is None else undefined)


@described
def tree(
    image: numpy.ndarray,
    *,
    mesh: int = 0,
    flat: bool = False,
    connect: int = 4,
    strips: int = 1,
    workers: int = 1,
    blank: Optional[int] = None,
    program: Optional[Path] = None,
) -> "Table":
    """The nodes of an image's max-tree.

    Parameters
    ----------
    image : numpy.ndarray of int, shape (height, width)
        The image, as that of `detect`.
    {mesh}
    {flat}
    {connect}
    {strips}
    {workers}
    {blank}
    {program}

    Returns
    -------
    astropy.table.Table
        A row for each node, with the columns NUMBER, LEVEL, REP, PARENT and AREA. Nodes are numbered from 0, in the
        order of level and then representative, so the number is the row. REP is the least pixel of the component that
        has this level, with pixels counted from 0 row by row: `image.flat[REP]`. PARENT is -1 at a root. AREA is in
        pixels.

    Raises
    ------
    ValueError
        Where the image hasn't two dimensions, or values lie too far from 0.
    TypeError
        Where the image or an option hasn't whole numbers.
    Refusal
        Where the program refuses the image or an option.
    NoProgram
        Where the program isn't found.

    Examples
    --------
    >>> import numpy
    >>> for node in tree(numpy.array([[1, 2, 1]])):
    ...     print(*node)
    0 1 0 -1 3
    1 2 1 0 1
    """
    options = dict(mesh=mesh, flat=int(flat), connect=connect, strips=strips, workers=workers)
    with run(words_of("tree", options), fits_of(image, blank), program) as output:
        lines = output.read().replace(b" - ", b" -1 ")
    numbers = numpy.fromstring(lines, dtype="i8", sep=" ").reshape(-1, 5) if lines else numpy.zeros((0, 5), dtype="i8")
    return Rows(dict(zip(("NUMBER", "LEVEL", "REP", "PARENT", "AREA"), numbers.T))).table()
