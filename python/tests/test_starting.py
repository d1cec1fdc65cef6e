"""How a command begins and ends: without what it stands on, and at an interrupt in any moment."""
import os
import pathlib
import runpy
import signal
import subprocess
import sys
import time

import pytest

from maxdetect import _starting as starting

TOP = pathlib.Path(__file__).resolve().parent.parent.parent
ENVIRONMENT = {**os.environ, "PYTHONPATH": str(TOP / "python")}
SCRIPT = "import sys\n\nfrom maxdetect._cli import main\n\nsys.exit(main())\n"
MOMENTS = 8


def said(*words):
    """The status of a Python that finds its own library alone, and the lines on standard error."""
    done = subprocess.run([sys.executable, "-S", *words], env=ENVIRONMENT, stderr=subprocess.PIPE, text=True)
    return done.returncode, done.stderr.splitlines()


@pytest.mark.parametrize("words", [["-m", "maxdetect._cli", "--version"], ["-m", "maxdetect", "survey"], ["maxcat"]])
def test_what_python_lacks_is_told_in_one_line(tmp_path, monkeypatch, words):
    monkeypatch.chdir(tmp_path)
    (tmp_path / "maxcat").write_text(SCRIPT)
    packages = "python3-numpy python3-astropy python3-scipy python3-sep python3-tqdm"
    lacking = "numpy, astropy, scipy, sep, tqdm"
    line = f"maxdetect: Python lacks {lacking} (Debian: apt-get install {packages}; else: pip install "
    assert said(*words) == (2, [line + lacking.replace(",", "") + ")"])


def test_another_program_is_told_as_always():
    status, lines = said("-c", "import maxdetect; maxdetect.detect")
    assert (
        status == 1 and lines[0].startswith("Traceback") and lines[-1] == "ModuleNotFoundError: No module named 'numpy'"
    )


def test_an_interrupt_at_any_moment_ends_maxcat_in_silence():
    def begun():
        # The tests may run where an interrupt is ignored.
        heard = {"preexec_fn": lambda: signal.signal(signal.SIGINT, signal.SIG_DFL), "start_new_session": True}
        pipes = {"stdout": subprocess.PIPE, "stderr": subprocess.PIPE}
        return subprocess.Popen([TOP / "maxcat", "--version"], text=True, **heard, **pipes)

    def seconds():
        start = time.monotonic()
        assert begun().communicate()[1] == ""
        return time.monotonic() - start

    long, statuses = min(seconds() for _ in range(3)), []
    for moment in range(MOMENTS):
        with begun() as running:
            time.sleep(long * moment / MOMENTS)
            # As a terminal does: to all that stand in the foreground.
            os.killpg(running.pid, signal.SIGINT)
            assert running.communicate()[1] == ""
        statuses.append(running.returncode)
    # How many end before their moment goes by what else the machine does.
    assert set(statuses) <= {130, -signal.SIGINT, 0} and statuses[0] != 0


@pytest.mark.parametrize(
    "words, status, told", [(["survey", "none.db"], 2, "maxdetect survey: "), (["--mesh"], 2, "maxcat: ")]
)
def test_the_package_as_a_command(monkeypatch, capsys, words, status, told):
    monkeypatch.setattr(sys, "argv", ["maxdetect", *words])
    with pytest.raises(SystemExit) as ended:
        runpy.run_module("maxdetect", run_name="__main__")
    out, err = capsys.readouterr()
    assert (ended.value.code, out) == (status, "") and err.startswith(told) and err.count("\n") == 1


@pytest.mark.parametrize(
    "word, all_words, expected",
    [
        ("/usr/bin/maxcat", [], True),
        ("/usr/bin/pytest", [], False),
        ("", [], False),
        ("-m", ["python3", "-m", "maxdetect._cli", "image.fits"], True),
        ("-m", ["python3", "-m", "maxdetect", "survey"], True),
        ("-m", ["python3", "-m", "pytest"], False),
    ],
)
def test_whether_it_is_loaded_for_a_command(monkeypatch, word, all_words, expected):
    monkeypatch.setattr(sys, "argv", [word] if word else [])
    monkeypatch.setattr(sys, "orig_argv", all_words, raising=False)
    assert starting._is_command() is expected


@pytest.fixture
def command(monkeypatch):
    """The package is loaded for a command, and Python lacks a module; handlers of signals are as before afterwards."""
    monkeypatch.setattr(sys, "argv", ["maxcat", "image.fits"])
    monkeypatch.setattr(starting, "WANTED", ("numpy", "no_such_module"))
    earlier = signal.getsignal(signal.SIGINT)
    yield
    signal.signal(signal.SIGINT, earlier)


def test_a_command_without_its_modules_ends_at_once(command, monkeypatch, capsys):
    monkeypatch.delenv("MAXDETECT_PYTHON", raising=False)
    signal.signal(signal.SIGINT, signal.default_int_handler)
    with pytest.raises(SystemExit) as ended:
        starting.begin()
    assert ended.value.code == 2 and signal.getsignal(signal.SIGINT) is starting._end_at_once
    line = "maxdetect: Python lacks no_such_module (Debian: apt-get install python3-no_such_module; else: pip install "
    assert capsys.readouterr().err == f"{line}no_such_module)\n"


def test_another_python_is_tried_once(command, monkeypatch):
    called = []
    monkeypatch.setattr(starting.os, "execv", lambda *given: called.append(given))
    for other, count in (("/bin/sh", 1), (sys.executable, 1), ("/no/such/python", 1)):
        monkeypatch.setenv("MAXDETECT_PYTHON", other)
        with pytest.raises(SystemExit):
            starting.begin()
        assert len(called) == count and "MAXDETECT_PYTHON" not in os.environ
    assert called == [("/bin/sh", ["/bin/sh", "-m", "maxdetect._cli", "image.fits"])]


def test_a_program_that_imports_the_package_keeps_its_ways(monkeypatch):
    monkeypatch.setattr(sys, "argv", ["program"])
    monkeypatch.setattr(starting, "WANTED", ("no_such_module",))
    before = signal.getsignal(signal.SIGINT)
    starting.begin()
    assert signal.getsignal(signal.SIGINT) is before


LEAVING = """
import atexit, sys
from maxdetect import _starting as starting

class Kept:
    def __del__(self):
        print("taken apart")

kept = Kept()
atexit.register(print, "at the end")
print("found", end=" ")
if sys.argv[1:]:
    sys.stdout.close()
starting.leave(3)
"""


@pytest.mark.parametrize("words, expected", [([], "found at the end\n"), (["closed"], "found ")])
def test_a_command_leaves_by_itself(words, expected):
    done = subprocess.run([sys.executable, "-c", LEAVING, *words], env=ENVIRONMENT, stdout=subprocess.PIPE, text=True)
    assert (done.returncode, done.stdout) == (3, expected)
