"""How a command begins and ends: what Python lacks is told in one line, and a signal ends it in silence.

The package loads this module before all others, and the others when they are wanted, so it stands on Python's own
library alone.
"""
import atexit
import contextlib
import importlib.util
import os
import pathlib
import signal
import sys
import threading
from typing import Iterator, NoReturn

# What the package stands on, as Python calls it; Debian puts python3- in front.
WANTED = ("numpy", "astropy", "scipy", "sep", "tqdm")


def _is_command() -> bool:
    """The package is loaded for one of its commands, and not for a program that imports it."""
    word = (getattr(sys, "argv", None) or [""])[0]
    if word == "-m":
        # So it is called as long as Python looks for the module that it is to run.
        return any(it.split(".")[0] == "maxdetect" for it in getattr(sys, "orig_argv", ["maxdetect"]))
    return pathlib.PurePath(word).name == "maxcat"


def _lacking() -> str:
    """What isn't there, and how to get it, in one line; empty where nothing lacks."""
    names = [name for name in WANTED if importlib.util.find_spec(name) is None]
    if not names:
        return ""
    packages = " ".join(f"python3-{name}" for name in names)
    return f"Python lacks {', '.join(names)} (Debian: apt-get install {packages}; else: pip install {' '.join(names)})"


def _end_at_once(number, frame) -> NoReturn:
    os._exit(128 + number)


def _by_another(lacking: str) -> None:
    """Goes on in the Python that ./maxcat names beside its own, where that is another one."""
    other = os.environ.pop("MAXDETECT_PYTHON", "")
    if lacking and os.path.isfile(other) and not os.path.samefile(other, sys.executable):
        os.execv(other, [other, "-m", "maxdetect._cli", *sys.argv[1:]])


def begin() -> None:
    """Where the package is loaded for a command, an interrupt ends it from here on, and a module that isn't there is
    told in one line, with status 2.
    """
    if not _is_command():
        return
    lacking = _lacking()
    _by_another(lacking)
    if signal.getsignal(signal.SIGINT) is signal.default_int_handler:
        signal.signal(signal.SIGINT, _end_at_once)
    if hasattr(signal, "pthread_sigmask"):
        # ./maxcat holds an interrupt back until here.
        signal.pthread_sigmask(signal.SIG_UNBLOCK, [signal.SIGINT])
    if lacking:
        print(f"maxdetect: {lacking}", file=sys.stderr)
        sys.exit(2)


def leave(status: int) -> NoReturn:
    """Ends a command that has done all, with what was to be done at the end: Python would take apart all that is loaded
    besides, for a twentieth of a second.
    """
    try:
        atexit._run_exitfuncs()
        for stream in (sys.stdout, sys.stderr):
            if stream is not None:
                stream.flush()
    except Exception:  # noqa: BLE001  Python tells of it in its own way.
        sys.exit(status)
    os._exit(status)


@contextlib.contextmanager
def ended_by_signals() -> Iterator[None]:
    """Within, an interrupt and the signals that batch systems and closed terminals send end the command as an exit
    does, so that it leaves no half of a file. A signal that is ignored before, as by nohup, stays ignored.
    """
    numbers = [getattr(signal, name) for name in ("SIGINT", "SIGTERM", "SIGHUP") if hasattr(signal, name)]
    plain = (signal.SIG_DFL, signal.default_int_handler, _end_at_once)
    alone = threading.current_thread() is threading.main_thread()
    taken = {it: signal.getsignal(it) for it in numbers if alone and signal.getsignal(it) in plain}

    def end(number, frame):
        # One is enough: another would end the cleaning up.
        for each in taken:
            signal.signal(each, signal.SIG_IGN)
        raise SystemExit(128 + number)

    try:
        for number in taken:
            signal.signal(number, end)
        yield
    finally:
        for number, before in taken.items():
            signal.signal(number, before)
