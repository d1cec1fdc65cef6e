"""Tries the packages that scripts/package made: each is installed, used for a first look, and taken away again.

usage: python3 tests/check_packages.py PACKAGES      (exit status 1 where something is amiss)

The wheel goes into a virtual environment, the Debian package into an empty root by dpkg, the archive into a prefix as
its INSTALL says. In each: a star field; maxcat, whose catalogue the three have alike; maxdetect and maxsurvey; `import
maxdetect`, which finds the programs that came with it. At the end no file of the package is left. The completion has
the options that maxcat's help and maxdetect's man page tell. What a tool is lacking for is skipped, and says so.

Wanted: numpy, astropy, scipy, sep and tqdm in this Python, without the repository's package or programs on its paths.
"""
import dataclasses
import hashlib
import importlib.util
import os
import pathlib
import re
import shutil
import subprocess
import sys
import tempfile
import venv
from typing import Callable

ASK = """
import maxdetect
from maxdetect import _loops

programs = (maxdetect.find_program(name=name) for name in ("maxdetect", "maxwide", "maxsurvey"))
print(maxdetect.__version__, _loops.library() is not None, *programs)
"""
# Words behind maxdetect, after which its options are offered.
COMMANDS = ("detect", "measure", "filter", "tree", "trial")


class Amiss(Exception):
    """What is wrong, in a line or more."""


@dataclasses.dataclass
class Place:
    """Where a package was installed: its prefix, its Python, where Python looks for modules, and how it goes away."""

    prefix: pathlib.Path
    python: str
    modules: str
    uninstall: Callable[[], None]

    def environment(self):
        """That of a user who has the package alone: nothing names the repository or another program."""
        paths = [str(self.prefix / "bin"), "/usr/bin", "/bin"]
        return {
            "PATH": ":".join(paths),
            "PYTHONPATH": self.modules,
            "PYTHONDONTWRITEBYTECODE": "1",
            "HOME": os.devnull,
            "LC_ALL": "C.UTF-8",
        }


def done(words, **more):
    """What a command prints, as bytes. Raises Amiss where it fails."""
    run = subprocess.run(words, stdout=subprocess.PIPE, stderr=subprocess.PIPE, check=False, **more)
    if run.returncode != 0:
        raise Amiss(f"{' '.join(map(str, words))}: status {run.returncode}\n{run.stderr.decode(errors='replace')}")
    return run.stdout


def files(folder):
    """All files and links below a folder; byte code is left out."""
    paths = (path for path in folder.rglob("*") if path.is_symlink() or not path.is_dir())
    return {path.relative_to(folder).as_posix() for path in paths if "__pycache__" not in path.parts}


# ---- the ways to install


def wheel(package, folder):
    """Into a virtual environment, which sees the machine's modules."""
    if importlib.util.find_spec("pip") is None:
        return None
    venv.create(folder, system_site_packages=True, with_pip=False)
    python = str(folder / "bin" / "python")
    pip = [sys.executable, "-m", "pip", "--disable-pip-version-check", "--python", python]
    before = files(folder)
    done([*pip, "install", "--no-index", "--no-deps", package])

    def uninstall():
        done([*pip, "uninstall", "--yes", "maxdetect"])
        left(folder, before)

    return Place(folder, python, "", uninstall)


def debian(package, folder):
    """Into an empty root: what the package depends on is the machine's."""
    rights = [] if os.geteuid() == 0 else ["fakeroot"]
    if not all(map(shutil.which, ["dpkg", *rights])):
        return None
    state = folder / "var/lib/dpkg"
    state.mkdir(parents=True)
    (state / "status").touch()
    dpkg = [*rights, "dpkg", f"--root={folder}", "--force-depends", "--force-script-chrootless", f"--log={os.devnull}"]
    done([*dpkg, "--install", package])

    def uninstall():
        done([*dpkg, "--purge", "maxdetect"])
        shutil.rmtree(folder / "var")
        left(folder, set())

    return Place(folder / "usr", sys.executable, str(folder / "usr/lib/python3/dist-packages"), uninstall)


def archive(package, folder):
    """Into a prefix that has a file already, by the lines of INSTALL."""
    done(["tar", "xf", package, "-C", folder])
    (unpacked,) = folder.iterdir()
    prefix = folder / "prefix"
    (prefix / "bin").mkdir(parents=True)
    (prefix / "bin" / "other").touch()
    text = (unpacked / "INSTALL").read_text(encoding="utf-8").replace("PREFIX", str(prefix))
    install, remove = re.findall(r"(?:^ {4}.*\n)+", text, re.M)
    before = files(prefix)
    done(["sh", "-ec", install], cwd=unpacked)

    def uninstall():
        done(["sh", "-ec", remove])
        left(prefix, before)

    return Place(prefix, sys.executable, str(prefix / "share/maxdetect/python"), uninstall)


def left(folder, before):
    """What wasn't there before the package came is gone, and nothing else."""
    after = files(folder)
    if after != before:
        raise Amiss(f"left over or missing: {sorted(after ^ before)[:5]}")


# ---- what is tried


def first_look(place, work):
    """From a star field to a catalogue, and a survey. Gives the catalogue's text, the survey's, and maxcat's line."""
    environment = place.environment()
    example = place.prefix / "share/doc/maxdetect/examples/star_field.py"
    field = done([place.python, example, "256", "256"], env=environment)
    (work / "field.fits").write_bytes(field)
    bin_folder = place.prefix / "bin"
    options = {"env": environment, "cwd": work}
    picture = ["--plot", "sources.png"] if importlib.util.find_spec("matplotlib") else []
    line = done([bin_folder / "maxcat", "field.fits", "-o", "field.csv", *picture], **options).decode()
    found = re.fullmatch(r"(\d+) sources in field\.csv\n", line)
    rows = (work / "field.csv").read_text().splitlines()
    if not found or not 100 < int(found[1]) < 200 or len(rows) != int(found[1]) + 1:
        raise Amiss(f"maxcat says {line!r} of a star field, and writes {len(rows)} lines")
    words = "detect --threshold 34 --min-area 5 --mesh 64 --connect 8".split()
    sources = done([bin_folder / "maxdetect", *words], env=environment, input=field)
    survey = done([bin_folder / "maxsurvey", "add", "NORTH", "list"], env=environment, input=sources).decode()
    if not re.fullmatch(r"NORTH \d{3} \d+\n", survey):
        raise Amiss(f"maxsurvey prints {survey!r}")
    return rows, survey, line


def imported(place, version):
    """`import maxdetect` gives the package's version, and its own programs."""
    told, has_loops, *programs = done([place.python, "-c", ASK], env=place.environment(), cwd="/").decode().split()
    if told != version or not all(pathlib.Path(it).resolve().is_relative_to(place.prefix.resolve()) for it in programs):
        raise Amiss(f"version {told} finds {programs}")
    if has_loops != "True":
        raise Amiss("the package's loops in C aren't there")
    line = done([place.prefix / "bin/maxcat", "--version"], env=place.environment()).decode()
    if line != f"maxcat {version}\n":
        raise Amiss(f"maxcat --version prints {line!r}")


def offered(place, name, *words):
    """The options that completion offers behind these words."""
    script = place.prefix / "share/bash-completion/completions" / name
    lines = f'. {script} || exit; COMP_WORDS=({name} {" ".join(words)} --); COMP_CWORD={len(words) + 1}; _{name}'
    shown = done(["bash", "-c", lines + '; printf "%s\\n" "${COMPREPLY[@]}"'], env=place.environment())
    return set(shown.decode().split())


def completed(place):
    """Completion offers each option that is told of, and no other."""
    text = done([place.prefix / "bin/maxcat", "--help"], env=place.environment()).decode()
    page = (pathlib.Path(__file__).resolve().parent.parent / "docs/maxdetect.1").read_text(encoding="utf-8")
    page = page[page.index(".SH OPTIONS") : page.index(".SH CATALOGUE")].replace("\\-", "-")
    every = set().union(*(offered(place, "maxdetect", command) for command in COMMANDS))
    pairs = (("maxcat", offered(place, "maxcat"), text), ("maxdetect", every, page))
    for name, found, document in pairs:
        differ = found ^ set(re.findall(r"--[a-z][a-z-]*", document))
        if differ:
            raise Amiss(f"completion of {name} and its options differ: {sorted(differ)}")


def tried(kind, install, package, version):
    """Installs, tries and removes a package. Gives what the first look gave, or None where a tool is lacking."""
    with tempfile.TemporaryDirectory() as folder:
        root, work = pathlib.Path(folder) / "root", pathlib.Path(folder) / "work"
        root.mkdir()
        work.mkdir()
        place = install(package, root)
        if place is None:
            print(f"skipped: the {kind}, which wants pip, or dpkg and fakeroot")
            return None
        seen = first_look(place, work)
        imported(place, version)
        completed(place)
        place.uninstall()
        print(f"{package.name}: installed, {' '.join(seen[2].split()[:2])}, taken away")
        return seen


def lint(package):
    """Debian's own check: no error, and no warning but that no bug of Debian's is closed."""
    if not shutil.which("lintian"):
        print("skipped: lintian isn't there")
        return
    words = ["lintian", "--allow-root", "--fail-on", "error,warning"]
    done([*words, "--suppress-tags", "initial-upload-closes-no-bugs", package])


def summed(folder):
    """SHA256SUMS has each package, with its sum."""
    lines = [line.split() for line in (folder / "SHA256SUMS").read_text().splitlines()]
    names = {path.name for path in folder.iterdir()} - {"SHA256SUMS"}
    wrong = [name for total, name in lines if hashlib.sha256((folder / name).read_bytes()).hexdigest() != total]
    if wrong or names != {name for _, name in lines}:
        raise Amiss(f"SHA256SUMS isn't that of {sorted(names)}")


def check(folder):
    """All that is checked of a folder of packages."""
    summed(folder)
    ways = (("wheel", wheel, "*.whl"), ("Debian package", debian, "*.deb"), ("archive", archive, "*.tar.gz"))
    looks = []
    for kind, install, pattern in ways:
        (package,) = folder.glob(pattern)
        version = re.search(r"[-_](\d[\w.]*)-", package.name)[1]
        seen = tried(kind, install, package, version)
        looks += [seen] if seen else []
    if any(look != looks[0] for look in looks):
        raise Amiss("the packages give different catalogues")
    lint(next(folder.glob("*.deb")))


def main():
    if len(sys.argv) != 2:
        print(__doc__.split("\n\n")[1], file=sys.stderr)
        return 2
    try:
        check(pathlib.Path(sys.argv[1]).resolve())
    except Amiss as amiss:
        print(f"check_packages: {amiss}", file=sys.stderr)
        return 1
    return 0


if __name__ == "__main__":
    sys.exit(main())
