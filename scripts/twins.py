#!/usr/bin/env python3
"""Tries the neutral twins of must-fail edits. A twin changes the edit's own place and leaves the meaning as it is, so
the prover has to accept it: else the edit may be refused for its shape alone, and tells nothing of a contract.

usage: scripts/twins.py CRATE [EDIT..]     (behind `scripts/build`, over whose libraries it checks)
       scripts/twins.py --list

The twin of crates/CRATE/must-fail/EDIT.edit stands in tests/twins/CRATE/EDIT.edit, in the same form. A line for each
edit says whether its twin is accepted; the exit status is 1 unless all are. Twins of different places are tried
together, and each by itself only where the prover refuses them so.

--list proves nothing. For each edit of every crate it says whether it has a twin, for each wrong body of
tests/twins/tests.txt which test is in place of an edit, and last how many there are. The status is 1 where an edit has
no twin, or a test isn't there.
"""
import importlib.machinery
import importlib.util
import pathlib
import shutil
import subprocess
import sys
import tempfile

TOP = pathlib.Path(__file__).resolve().parent.parent


def changes(path):
    """The changes of an edit: of which file which text becomes which."""
    file, old, found = None, None, []
    for line in path.read_text(encoding="utf-8").splitlines():
        kind, _, text = line.partition(":")
        text = text.removeprefix(" ")
        if kind == "file":
            file = text
        elif kind == "old":
            old = text
        elif kind == "new":
            found.append((file, old, text))
    return found


def overlap(one, other):
    """Whether two edits change one text, or one a part of the other's."""
    return any(
        file == there and (old.strip() in text or text.strip() in old)
        for file, old, _ in one
        for there, text, _ in other
    )


def apart(edits):
    """Edits in groups of which no two change one text, so that each group can be tried at once."""
    groups = []
    for name, made in edits.items():
        free = (group for group in groups if not any(overlap(made, edits[other]) for other in group))
        group = next(free, None)
        if group is None:
            groups.append([name])
        else:
            group.append(name)
    return groups


def apply(folder, made):
    """Makes the changes in a copy of a crate."""
    for file, old, new in made:
        path = folder / file
        text = path.read_text(encoding="utf-8")
        if text.count(old) != 1:
            raise SystemExit(f"twins: {file} has {text.count(old)} times, and not once: {old.strip()}")
        path.write_text(text.replace(old, new), encoding="utf-8")


class Prover:
    """The kit's prover over the libraries that `scripts/build` keeps, for copies of one crate."""

    def __init__(self, crate):
        loader = importlib.machinery.SourceFileLoader("building", str(TOP / "scripts" / "build"))
        building = importlib.util.module_from_spec(importlib.util.spec_from_loader("building", loader))
        loader.exec_module(building)
        kit = pathlib.Path(shutil.which("rt")).resolve().parent.parent
        lines = building.listed()
        words = [str(word) for word in building.Proof(kit, crate, lines[crate], lines).words(2)]
        last = next(words.index(word) for word in ("--statements", "--toolchain") if word in words)
        self.command = [str(kit / "bin/rattle"), "check", *words[:last]]
        self.folder = TOP / "crates" / crate

    def accepts(self, edits):
        """Whether it accepts the crate with all these edits at once."""
        with tempfile.TemporaryDirectory() as room:
            copy = pathlib.Path(room, "crate")
            shutil.copytree(self.folder, copy, ignore=shutil.ignore_patterns("out", "must-fail"))
            for made in edits:
                apply(copy, made)
            return subprocess.run(self.command, cwd=copy, stdin=subprocess.DEVNULL, capture_output=True).returncode == 0


def accepted(prover, twins):
    """The names of the twins that the prover accepts."""
    for names in apart(twins):
        if prover.accepts([twins[name] for name in names]):
            yield from names
        elif len(names) > 1:
            yield from (name for name in names if prover.accepts([twins[name]]))


def stood_for(text):
    """The wrong bodies that a test stands for: of which crate, by which test, and what each does."""
    lines = [line for line in text.splitlines() if line and not line.startswith("#")]
    return [(*line.partition(": ")[0].split(), line.partition(": ")[2]) for line in lines]


def has_test(crate, name):
    """Whether the crate has this test."""
    found = (TOP / "crates" / crate / "src").glob("**/*.rt")
    return any(f"#[test]\nfn {name}(" in path.read_text(encoding="utf-8") for path in found)


def listed():
    """Says of each edit whether it has a twin, and which tests are in place of edits; the exit status."""
    edits = sorted((TOP / "crates").glob("*/must-fail/*.edit"))
    twins = [path for path in edits if (TOP / "tests" / "twins" / path.parts[-3] / path.name).exists()]
    for path in edits:
        print(f"{path.parts[-3]}/{path.stem}: {'twin' if path in twins else 'no twin'}")
    tests = stood_for((TOP / "tests" / "twins" / "tests.txt").read_text(encoding="utf-8"))
    lost = [test for test in tests if not has_test(*test[:2])]
    for crate, name, body in tests:
        print(f"{crate}: {body}: {'NO ' if (crate, name, body) in lost else ''}test {name}")
    print(f"{len(edits)} edits, {len(twins)} with twins, {len(tests)} wrong bodies with tests in place of edits")
    return 0 if len(twins) == len(edits) and not lost else 1


def main():
    """Tries the twins of a crate's edits and says how each ended; the exit status."""
    if len(sys.argv) < 2:
        sys.exit(__doc__.split("\n\n")[1])
    if sys.argv[1:] == ["--list"]:
        return listed()
    crate, wanted = sys.argv[1], sys.argv[2:]
    names = wanted or sorted(path.stem for path in (TOP / "crates" / crate / "must-fail").glob("*.edit"))
    paths = {name: TOP / "tests" / "twins" / crate / f"{name}.edit" for name in names}
    twins = {name: changes(path) for name, path in paths.items() if path.exists()}
    good = set(accepted(Prover(crate), twins))
    for name in names:
        print(f"{crate}/{name}: {'accepted' if name in good else 'REFUSED' if name in twins else 'no twin'}")
    return 0 if good == set(names) else 1


if __name__ == "__main__":
    sys.exit(main())
