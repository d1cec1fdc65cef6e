"""Checks the documents against what stands here, and against each other.

usage: python3 tests/check_documents.py      (at the top of the repository; exit status 1 where something is amiss)

The crates stand in docs/ARCHITECTURE.md and docs/PROVED.md as crates.txt has them, in its order; each
name that docs/DEFINITIONS.md explains is a definition's; each file that a document links to or names is there; what
speaks of the catalogue's columns has those of `fits_write`, in their order; no two documents share a paragraph; and a
byte's way through `detect`, as docs/ARCHITECTURE.md draws it, is through at most thirteen crates. What is amiss among
the definitions themselves `scripts/definitions.py --check` says.
"""
import itertools
import pathlib
import re
import sys

TOP = pathlib.Path(__file__).resolve().parent.parent
sys.path.insert(0, str(TOP / "scripts"))
from columns import other_columns  # noqa: E402
from definitions import definitions  # noqa: E402

LONG = 12
# Through so many crates a byte goes at most.
MOST_CRATES = 13


def crates():
    """The crates of crates.txt in their order, each with those that it stands on."""
    found = {}
    for line in (TOP / "crates.txt").read_text(encoding="utf-8").splitlines():
        entry, _, below = line.split("#")[0].partition(":")
        if entry.split():
            found[entry.split()[0]] = below.split()
    return found


def documents():
    """The documents' names and texts."""
    for path in [TOP / "README.md", *sorted((TOP / "docs").glob("*.md"))]:
        yield path.relative_to(TOP).as_posix(), path.read_text(encoding="utf-8")


def paragraphs(text):
    """What a reader reads as one piece: a paragraph, an item of a list or a row of a table, in small letters
    without marks. Code isn't looked at."""
    prose = re.sub(r"^```.*?^```", "", text, flags=re.M | re.S)
    for piece in re.split(r"\n\s*\n|\n(?=\s*- |\|)", prose):
        words = re.findall(r"[a-z0-9_]+", piece.lower())
        if len(words) >= LONG:
            yield " ".join(words)


def other_crates(text):
    """Where documents have other crates than crates.txt, or another order."""
    wanted = crates()
    _, _, listed = text["docs/ARCHITECTURE.md"].partition("\n## The crates, lowest first\n")
    told = {
        "docs/ARCHITECTURE.md": re.findall(r"^- `(\w+)`:", listed.partition("\n## ")[0], flags=re.M),
        "docs/PROVED.md": re.findall(r"^## `(\w+)`", text["docs/PROVED.md"], flags=re.M),
    }
    for name, found in told.items():
        if found != list(wanted):
            first = next((a or b for a, b in itertools.zip_longest(found, wanted) if a != b), None)
            yield f"{name} hasn't the crates of crates.txt in their order: look at {first}"


def way(text):
    """The crates that docs/ARCHITECTURE.md draws on a byte's way, each once, in their order."""
    return list(dict.fromkeys(re.findall(r"^  │  (\w+)", text["docs/ARCHITECTURE.md"], flags=re.M)))


def long_way(text):
    """Where the way goes through too many crates, or through one that isn't there."""
    found = way(text)
    if not 0 < len(found) <= MOST_CRATES:
        yield f"docs/ARCHITECTURE.md draws a byte's way through {len(found)} crates, and not through 1 to {MOST_CRATES}"
    for name in found:
        if name not in crates():
            yield f"docs/ARCHITECTURE.md draws a byte's way through {name}, which is no crate"


def code(name):
    """The lines of a crate's files that aren't tests."""
    for path in sorted((TOP / "crates" / name / "src").rglob("*.rt")):
        if not path.stem.endswith("tests"):
            yield from path.read_text(encoding="utf-8").splitlines()


def count_of_way(text):
    """How long the way is, in one line."""
    found = way(text)
    lines = [line for name in found for line in code(name)]
    functions = sum(bool(re.match(r"\s*(?:pub(?:\(crate\))? )?fn ", line)) for line in lines)
    names = ", ".join(found)
    return f"a byte of detect goes through {len(found)} crates, {functions} functions on {len(lines)} lines: {names}"


def unknown_names(text):
    """Names that DEFINITIONS explains and no file of specs/ has."""
    known = {one.name for one in definitions()} | set(crates())
    _, _, explained = text["docs/DEFINITIONS.md"].partition("\n## What a reviewer cites\n")
    for name in re.findall(r"`([\w'-]+)`", explained):
        if name not in known:
            yield f"docs/DEFINITIONS.md explains {name}, which no file of specs/ has"


def broken_links(text):
    """Links to files that aren't there, and files named in code marks that aren't."""
    for name, content in text.items():
        for target in re.findall(r"\]\(([^)#:]+)(?:#[^)]*)?\)", content):
            if not (TOP / name).parent.joinpath(target).exists():
                yield f"{name} links to {target}, which isn't there"
        for target in re.findall(r"`((?:docs|bench|scripts|tests|examples|python|crates)/[\w./-]+\.\w+)`", content):
            if not (TOP / target).exists():
                yield f"{name} names {target}, which isn't there"


def shared_paragraphs(text):
    """Paragraphs that stand in two documents, or twice in one."""
    seen = {}
    for name, content in text.items():
        for piece in paragraphs(content):
            if piece in seen:
                yield f"{name} and {seen[piece]} share a paragraph: {piece[:70]}"
            seen.setdefault(piece, name)


def main():
    text = dict(documents())
    checks = (other_crates, long_way, unknown_names, broken_links, shared_paragraphs)
    found = [*other_columns(), *(line for check in checks for line in check(text))]
    for line in found:
        print(line)
    print(count_of_way(text))
    if not found:
        print("the documents have the crates and columns, explain definitions that are there, and share no paragraph")
    return 1 if found else 0


sys.exit(main())
