"""Lists the definitions of specs/ with what is said of each, or looks for what is amiss among them.

usage: python3 scripts/definitions.py [WORD..]      those of a crate or with a name, the model first; no word: all
       python3 scripts/definitions.py --check       exit status 1 where something is amiss

Amiss is: a definition that stands twice; a name that two crates have, or two names that differ by case alone; a file
whose first line says neither Model nor Bookkeeping; one of the model that no public contract cites, nor another of the
model; bookkeeping that the contract of a function of a crate's root cites, or the model of another crate; and a lemma
whose statement two crates have.
"""

import pathlib
import re
import sys
from dataclasses import dataclass, field

TOP = pathlib.Path(__file__).resolve().parent.parent
NAME = r"[^\s:(){}\[\],;.]+"
HEAD = re.compile(rf"^(?P<marks>(?:(?:abbrev|unfoldable|pub)\s+)*)(?P<kind>record\s+|data\s+)?(?P<name>{NAME})")


@dataclass
class Definition:
    """One definition: its crate, its file's topic, whether that is of the model, and what stands above it."""

    crate: str
    topic: str
    model: bool
    name: str
    comment: str
    lines: list = field(default_factory=list)

    @property
    def place(self):
        return f"{self.crate}/specs/{self.topic}"

    def body(self):
        """Its text without marks, in one line, with its own name left out."""
        text = re.sub(r"--.*", "", " ".join(line.strip() for line in self.lines))
        text = re.sub(r"^(?:(?:abbrev|unfoldable|pub)\s+)+", "", re.sub(r"\s+", " ", text).strip())
        return re.sub(rf"(?<![^\s(){{}}\[\],;.]){re.escape(self.name)}(?![^\s(){{}}\[\],;.])", "@", text)


def spec_files():
    """The files of definitions, without those that only name the others."""
    for path in sorted(TOP.glob("crates/*/specs/*.antt")):
        if path.name != "Lib.antt":
            yield path


def definitions_in(path):
    """The definitions of one file, in their order."""
    text = path.read_text(encoding="utf-8").splitlines()
    model = bool(text) and text[0].startswith("-- Model:")
    current, comment = None, []
    for line in text:
        if not line.strip() or line.startswith(("use ", "mod ", "module ", "pub mod ", "pub use ")):
            comment = []
        elif line.startswith("--"):
            comment.append(line[2:].strip())
        elif line[0].isspace() or line.startswith(("unfolding ", "}")):
            if current:
                current.lines.append(line)
        else:
            head = HEAD.match(line)
            if current and head and head["name"] == current.name and not head["marks"]:
                current.lines.append(line)
            elif head:
                said = " ".join(comment)
                current = Definition(path.parts[-3], path.stem, model, head["name"], said, [line])
                comment = []
                yield current


def definitions():
    return [one for path in spec_files() for one in definitions_in(path)]


def shown(one):
    said = f": {one.comment}" if one.comment and not one.comment.startswith("----") else ""
    return f"  {one.name}{said}"


def listing(words):
    """The definitions that the words name, by files, the model first."""
    for model in (True, False):
        last = None
        for one in definitions():
            if one.model is model and (not words or one.crate in words or one.name in words):
                if one.place != last:
                    yield f"{'Model' if model else 'Bookkeeping'}: {one.place}"
                    last = one.place
                yield shown(one)


# ---- what is amiss


def standing_twice(found):
    seen = {}
    for one in found:
        text = one.body()
        if len(text) > 25:
            if text in seen:
                yield f"{one.name} of {one.place} stands in {seen[text].place} too, as {seen[text].name}"
            seen.setdefault(text, one)


def alike_but_for_case(found):
    seen = {}
    for one in found:
        plain = one.name.lower().replace("_", "").replace("-", "")
        other = seen.setdefault(plain, one)
        if other.name != one.name:
            yield f"{one.name} of {one.place} and {other.name} of {other.place} differ by case alone"


def two_meanings(found):
    seen = {}
    for one in found:
        other = seen.setdefault(one.name, one)
        if other.place != one.place:
            yield f"{one.name} stands in {one.place} and in {other.place}"


def unmarked(_):
    for path in spec_files():
        first = path.read_text(encoding="utf-8").splitlines()[0]
        if not first.startswith(("-- Model:", "-- Bookkeeping:")):
            yield f"{path.relative_to(TOP)} says neither Model nor Bookkeeping in its first line"


def headers_of(text):
    """The headers of public functions and of a trait's, with their clauses, and the ghost lines of types."""
    in_trait = in_header = False
    for line in text.splitlines():
        words = line.strip()
        if line and not line[0].isspace():
            in_trait = bool(re.match(r"(pub trait|unsafe impl .* for|impl.* for) ", line))
        begins = re.match(r"(pub )?(const )?(unsafe )?fn ", words)
        if begins:
            in_header = bool(begins[1]) or in_trait
        if in_header or words.startswith(("ghost ", "}) ")) and not words.startswith("ghost use"):
            yield words
        if words in ("{", "}") or words.endswith((";", "{")) and not words.startswith(("requires", "ensures")):
            in_header = False
        if in_trait and "Model for" in line:
            in_header = True


def public_text():
    """What a reader of public contracts sees."""
    for path in sorted(TOP.glob("crates/*/src/**/*.rt")):
        if path.stem != "tests" and not path.stem.endswith("_tests"):
            yield from headers_of(path.read_text(encoding="utf-8"))


def cited_names(text):
    return set(re.findall(r"[^\s(){}\[\],;.:]+", text))


def cited_by_none(found):
    """Definitions of the model that neither a public contract nor another definition of the model cites. A lemma that
    stands in specs/, as a trait's law may want it, has a hyphen in its name, and isn't looked at.
    """
    public = cited_names("\n".join(public_text()))
    within = {}
    for one in found:
        if one.model:
            for name in cited_names(" ".join(one.lines)):
                within.setdefault(name, set()).add((one.crate, one.name))
    for one in found:
        others = within.get(one.name, set()) - {(one.crate, one.name)}
        if one.model and "-" not in one.name and one.name not in public and not others:
            yield f"{one.name} of {one.place} is of the model, but nothing public cites it, nor another of the model"


def handed_out(crate):
    """The texts of the files of a crate whose functions its root hands out, each with these functions' headers."""
    root = crate / "src" / "lib.rt"
    text = root.read_text(encoding="utf-8") if root.exists() else ""
    handed = {module: set() for module in re.findall(r"^pub mod (\w+);", text, re.MULTILINE)}
    for module, names in re.findall(r"^pub use (\w+)::\{?([^;]*?)\}?;", text, re.MULTILINE):
        handed.setdefault(module, set()).update(re.findall(r"\w+", names))
    for module, names in handed.items():
        path = crate / "src" / f"{module}.rt"
        text = path.read_text(encoding="utf-8") if path.exists() else ""  # else a crate below has it
        functions = re.split(r"(?m)^(?=(?:pub )?fn )", text)[1:]
        named = ((re.match(r"pub fn (\w+)", one), re.split(r"(?m)^\{", one)[0]) for one in functions)
        yield text, " ".join(header for name, header in named if name and (not names or name[1] in names))


def imported(text):
    """From which crate and topic a file has each name of specs/ that it imports."""
    for crate, topic, names in re.findall(r"^(?:ghost )?use Rattle\.(\w+)\.specs\.(\w+)\.\{(.*)\}", text, re.MULTILINE):
        for name in names.split(","):
            yield name.strip().split(" as ")[0], f"{crate}/specs/{topic}"


def bookkeeping_cited(found):
    """Bookkeeping that a reader of public contracts meets."""
    kept = {(one.name, one.place) for one in found if not one.model}
    for crate in sorted(TOP.glob("crates/*")):
        for text, headers in handed_out(crate):
            for name, place in sorted(set(imported(text)) & kept):
                if name in cited_names(headers):
                    yield f"{name} of {place} is bookkeeping, and a public contract of {crate.name} cites it"
    for path in spec_files():
        text = path.read_text(encoding="utf-8")
        for name, place in set(imported(text)) & kept if text.startswith("-- Model:") else ():
            if "-" not in name and not place.startswith(path.parts[-3] + "/"):
                yield f"{name} of {place} is bookkeeping, and {path.relative_to(TOP)} cites it"


LEMMA = re.compile(rf"^(?:(?:abbrev|unfoldable|pub)\s+)*({NAME}) : (.*(?:\n[ \t]+.*)*)", re.MULTILINE)


def lemmas_twice(_):
    """Lemmas of proofs/ whose statements two crates have, but for the answers that each function has of its own."""
    seen = {}
    for path in sorted(TOP.glob("crates/*/proofs/**/*.antt")):
        for name, said in LEMMA.findall(path.read_text(encoding="utf-8")):
            said, crate = re.sub(r"\s+", " ", said), path.relative_to(TOP).parts[1]
            other = seen.setdefault(said, (crate, name))
            if len(said) > 60 and other[0] != crate:
                yield f"{name} of {crate} says what {other[1]} of {other[0]} does"


CHECKS = (
    standing_twice,
    alike_but_for_case,
    two_meanings,
    unmarked,
    cited_by_none,
    bookkeeping_cited,
    lemmas_twice,
)


def main(words):
    if words == ["--check"]:
        found = definitions()
        amiss = [line for check in CHECKS for line in check(found)]
        print("\n".join(amiss or [f"{len(found)} definitions: none stands twice, and all of the model is cited"]))
        return 1 if amiss else 0
    for line in listing(words):
        print(line)
    return 0


if __name__ == "__main__":
    sys.exit(main(sys.argv[1:]))
