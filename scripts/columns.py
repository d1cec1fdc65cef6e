"""The list of the catalogue's columns, and what else speaks of columns beside it.

The list stands in crates/fits_write/src/columns.rt. That its definition, the bytes of a row and the cells of a source
have its columns is proved; what else has them is compared with it here.
"""
import importlib.util
import pathlib
import re
import sys
from typing import Iterator, List, NamedTuple

TOP = pathlib.Path(__file__).resolve().parent.parent
SIZES = {"J": 4, "K": 8}
TABLE = "| Column | Form | Number |"
# Cells of literal rows in tests, and cards of a literal header.
TESTS = "crates/detect_top/src"
HEADER = f"{TESTS}/detection_tests.rt"


class Column(NamedTuple):
    """A column: its name, its TFORM, its unit, "" where it is the image's own, and what it is."""

    name: str
    form: str
    unit: str = ""
    text: str = ""


def read(name: str) -> str:
    return (TOP / name).read_text(encoding="utf-8")


def listed(constant: str) -> List[Column]:
    """The columns of CATALOGUE or of MEASURES in the list."""
    _, _, behind = read("crates/fits_write/src/columns.rt").partition(f"const {constant}: &[Column] = &[")
    lines = behind.partition("\n];")[0].strip().splitlines()
    found = [re.fullmatch(r' *column!\(b"(\w+) *", (\w)\), // (?:\[(.*?)\] )?(.+)', line) for line in lines]
    if not found or None in found:
        raise ValueError(f"crates/fits_write/src/columns.rt: a line of {constant} can't be read")
    return [Column(one[1], one[2], one[3] or "", one[4]) for one in found if one]


def named(pairs) -> List[Column]:
    """A column for each name in lists of names with one form."""
    return [Column(name, form) for names, form in pairs for name in names.split(", ")]


def first_other(where: str, found: List[Column], wanted: List[Column]) -> Iterator[str]:
    """Where the columns aren't those that are wanted, the first of them."""
    if found != wanted:
        pairs = zip([*found, *[None] * len(wanted)], [*wanted, *[None] * len(found)])
        has, lacks = next((a, b) for a, b in pairs if a != b)
        yield f"{where} hasn't the columns of crates/fits_write/src/columns.rt: {has} where {lacks} is wanted"


def pythons() -> List[List[Column]]:
    """Python's own columns, and those of measures."""
    path = TOP / "python/maxdetect/_columns.py"
    spec = importlib.util.spec_from_file_location("columns_of_python", path)
    module = importlib.util.module_from_spec(spec)
    spec.loader.exec_module(module)
    tables = module.CATALOGUE, module.MEASURES
    return [[Column(name, it.form, it.unit or "", it.text) for name, it in table.items()] for table in tables]


def models() -> List[List[Column]]:
    """Those of the plain model."""
    text = read("tests/model/sources.py")
    tables = (re.search(rf"^{name} = (.*?)\.split\(\)$", text, flags=re.M | re.S) for name in ("COLUMNS", "MEASURES"))
    return [[Column(*pair) for pair in re.findall(r"(\w+):(\w)\b", found[1] if found else "")] for found in tables]


def formats() -> List[List[Column]]:
    """Those of the tables in FORMATS."""
    tables = (piece.split("\n\n")[0] for piece in read("docs/FORMATS.md").split(TABLE)[1:])
    return [named(re.findall(r"^\| ([A-Z, ]+) \| (\w) \|", table, flags=re.M)) for table in tables]


def pages() -> List[List[Column]]:
    """Those of the tables on the man page."""
    tables = [piece.split("\n.TE")[0] for piece in read("docs/maxdetect.1").split("\n.TS")]
    found = [named(re.findall(r"^([A-Z][A-Z, ]+)\|([JK])\|T\{$", table, flags=re.M)) for table in tables]
    return [columns for columns in found if columns]


def sizes(cells: List[Column]) -> int:
    return sum(SIZES[column.form] for column in cells)


def header(columns: List[Column]) -> Iterator[str]:
    """Cards of the literal header in a test that are missing."""
    text = read(HEADER)
    for number, column in enumerate(columns, 1):
        for keyword, value in (("TTYPE", column.name), ("TFORM", column.form)):
            card = f"{keyword + str(number):<8}= '{value:<8}'"
            if f'b"{card}"' not in text:
                yield f"{HEADER} hasn't the card {card}"
    for keyword, number in (("NAXIS1", sizes(columns)), ("TFIELDS", len(columns))):
        if f'b"{keyword:<8}= {number:>20}"' not in text:
            yield f"{HEADER} hasn't {number} as {keyword}"


def literal_rows(columns: List[Column], measures: List[Column]) -> Iterator[str]:
    """Rows of a test, with a cell in each line, that have other cells than the columns."""
    wanted = [[SIZES[column.form] for column in some] for some in (columns, [*columns, *measures])]
    for path in sorted((TOP / TESTS).glob("*.rt")):
        for name, row in re.findall(r'const (\w+): &\[u8\] = b"((?:\\.|[^"\\])*)";', path.read_text(), flags=re.S):
            cells = [re.sub(r"\\x..|\\.", "0", cell.strip()) for cell in row.split("\\\n")]
            lengths = [len(cell) for cell in cells]
            if len(lengths) > 9 and set(lengths) == {4, 8} and lengths not in wanted:
                yield f"{path.relative_to(TOP)}: {name} has {len(lengths)} cells with the bytes {lengths}"


def told_sizes(columns: List[Column], measures: List[Column]) -> Iterator[str]:
    """Sentences of FORMATS and DEFINITIONS that say how large a row is."""
    cells, narrow, wide = len(columns), sizes(columns), sizes([*columns, *measures])
    said = {
        "docs/FORMATS.md": [f"a row of {narrow} bytes", f"a row has {wide} bytes", f"`cells` has {8 * cells} bytes"]
        + [f"its {cells} numbers", f'numpy.frombuffer(cells, ">i8").reshape(-1, {cells})', f"rows of {narrow} bytes"],
        "docs/DEFINITIONS.md": [f"a row of {narrow} bytes"],
    }
    for name, phrases in said.items():
        text = " ".join(read(name).split())
        yield from (f"{name} doesn't say: {phrase}" for phrase in phrases if phrase not in text)


def worked_row(columns: List[Column]) -> Iterator[str]:
    """Where the worked row of DEFINITIONS has other columns, or cells of another size."""
    block = next(piece for piece in read("docs/DEFINITIONS.md").split("```") if piece.startswith("\nNUMBER "))
    cells = re.findall(r"([A-Z]+) +((?:[0-9a-f]{2} ?)+)", block)
    kinds = {4: "J", 8: "K"}
    found = [Column(name, kinds.get(len(number.split()), "?")) for name, number in cells]
    yield from first_other("docs/DEFINITIONS.md, its worked row,", found, bare(columns))


def bare(columns: List[Column]) -> List[Column]:
    return [Column(column.name, column.form) for column in columns]


def other_columns() -> Iterator[str]:
    """Where other columns, other forms, other units or other meanings stand than in the list."""
    lists = [listed("CATALOGUE"), listed("MEASURES")]
    for found, wanted in zip(pythons(), lists):
        yield from first_other("python/maxdetect/_columns.py", found, wanted)
    for where, tables in (
        ("tests/model/sources.py", models()),
        ("docs/FORMATS.md", formats()),
        ("docs/maxdetect.1", pages()),
    ):
        if len(tables) != len(lists):
            yield f"{where} has {len(tables)} tables of columns, and not {len(lists)}"
        for found, wanted in zip(tables, lists):
            yield from first_other(where, found, bare(wanted))
    yield from header(lists[0])
    yield from literal_rows(*lists)
    yield from told_sizes(*lists)
    yield from worked_row(lists[0])


if __name__ == "__main__":
    amiss = list(other_columns())
    print(*amiss, sep="\n", end="\n" if amiss else "")
    sys.exit(1 if amiss else 0)
