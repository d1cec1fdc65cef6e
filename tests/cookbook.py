"""Runs the blocks of code in a document, by default docs/COOKBOOK.md, one after the other in one folder.

usage: /usr/bin/python3 tests/cookbook.py MAXDETECT [DOCUMENT]      (MAXDETECT is the built program)

A block's first line may say what it wants: `# wants: stilts sep`, each the name of a program or of a Python module,
or `index-files` for those of astrometry.net. Lines that install packages, and `.ci/run`, are left out. A block without
a language right behind another one is what that one prints. Where something is missing the block is skipped, and a
line says so. A block that fails ends the run with status 1. The commands find `maxcat`, and Python the package, in
this repository; MAXDETECT_HOME is its folder.
"""
import importlib.util
import os
import pathlib
import re
import shutil
import subprocess
import sys
import tempfile

TOP = pathlib.Path(__file__).resolve().parent.parent
BLOCK = re.compile(r"^```(sh|python)\n(.*?)^```$(?:\s*^```\n(.*?)^```$)?", re.M | re.S)
INDEX_FILES = pathlib.Path("/usr/share/astrometry")
# What changes the machine, and what runs this script.
OUTSIDE = re.compile(r"^(apt-get |\.ci/run$).*\n", re.M)


def is_there(name):
    """Whether there is a program or a module of this name."""
    if name == "index-files":
        return any(INDEX_FILES.glob("index-*.fits*"))
    return shutil.which(name) is not None or importlib.util.find_spec(name) is not None


def wanted(code):
    """The names that a block's first line says it wants."""
    first = code.split("\n", 1)[0]
    return first.split(":", 1)[1].split() if first.startswith("# wants:") else []


def other_program(program, name):
    """One beside the program, or where the repository has it."""
    places = [pathlib.Path(program).with_name(name), TOP / "crates" / name / "out" / name]
    return next((it for it in places if it.exists()), places[1])


def surroundings(folder, program):
    """The environment of the blocks: `maxcat` and the programs on the PATH, and the package for Python."""
    tools = folder / "tools"
    tools.mkdir()
    command = tools / "maxcat"
    command.write_text(f'#!/bin/sh\nexec "{sys.executable}" -m maxdetect._cli "$@"\n')
    command.chmod(0o755)
    (tools / "python3").symlink_to(sys.executable)
    for name in ("maxwide", "maxsurvey"):
        (tools / name).symlink_to(other_program(program, name))
    paths = {"PATH": f"{tools}:{os.environ['PATH']}", "PYTHONPATH": os.fspath(TOP / "python")}
    return {**os.environ, **paths, "MAXDETECT": program, "MAXDETECT_HOME": os.fspath(TOP)}


def furnished(folder, program):
    """A folder in which a block finds what stands at the top of the repository under the same names."""
    kitchen = folder / "kitchen"
    kitchen.mkdir()
    links = {"examples": TOP / "examples", "python": TOP / "python", "maxcat": folder / "tools" / "maxcat"}
    links.update({"maxdetect": pathlib.Path(program), "maxsurvey": other_program(program, "maxsurvey")})
    for name, place in links.items():
        (kitchen / name).symlink_to(place)
    return kitchen


def lines(text):
    """The lines without what can't be seen at their ends."""
    return [line.rstrip() for line in text.strip().splitlines()]


def run(language, code, told, folder, environment):
    """Runs one block, and compares what it prints with `told`, if there is something."""
    command = ["sh", "-e", "-c", code] if language == "sh" else [sys.executable, "-c", code]
    result = subprocess.run(command, cwd=folder, env=environment, capture_output=True, text=True, check=False)
    if result.returncode != 0:
        sys.exit(
            f"cookbook: this block ended with status {result.returncode}:\n\n{code}\n{result.stdout}{result.stderr}"
        )
    if told and lines(told) != lines(result.stdout):
        sys.exit(f"cookbook: this block prints something else:\n\n{code}\n{result.stdout}")


def main():
    program = os.fspath(pathlib.Path(sys.argv[1]).resolve())
    document = pathlib.Path(sys.argv[2]) if len(sys.argv) > 2 else TOP / "docs" / "COOKBOOK.md"
    missing = [name for name in ("numpy", "astropy", "scipy", "sep", "tqdm", "matplotlib") if not is_there(name)]
    if missing:
        print(f"skipped: tests/cookbook.py wants {', '.join(missing)} (Debian: python3-NAME)")
        return
    count = 0
    with tempfile.TemporaryDirectory() as name:
        environment = surroundings(pathlib.Path(name), program)
        kitchen = furnished(pathlib.Path(name), program)
        for language, code, told in BLOCK.findall(OUTSIDE.sub("", document.read_text(encoding="utf-8"))):
            missing = [name for name in wanted(code) if not is_there(name)]
            if missing:
                print(f"skipped: a block of {document.name} wants {', '.join(missing)}")
                continue
            run(language, code, told, kitchen, environment)
            count += 1
    print(f"cookbook: {count} blocks of {document.name} ran")


main()
