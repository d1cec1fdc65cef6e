"""How commands tell what came of their work: faults in one line, and a status."""
import contextlib
import os
import sys
from typing import Callable, List, Optional

from ._errors import Mistake

__all__ = ["about", "attempted", "say", "text", "told", "with_image"]


@contextlib.contextmanager
def about(path: str):
    """A fault of the system within that names no file names this one."""
    try:
        yield
    except OSError as error:
        if error.filename or isinstance(error, BrokenPipeError):
            raise
        raise Mistake(f"{path}: {error.strerror or error}") from None


def attempted(work: Callable, *given):
    """What some work gives, or the fault that a user can put right."""
    try:
        return work(*given)
    except BrokenPipeError:
        raise
    except (Mistake, MemoryError, OSError, ImportError) as fault:
        return fault


def with_image(path: str, work: Callable, *given):
    """What some work on an image gives. Raises Mistake, in one line, whatever comes in its way, so that the others are
    done; a fault of the system that names a file stays as it is.
    """
    try:
        with about(path):
            return work(*given)
    except (Mistake, OSError):
        raise
    except MemoryError:
        raise Mistake(f"{path}: memory is wanted") from None
    except Exception as error:  # noqa: BLE001  A file may be wrong in ways that nobody thought of.
        raise Mistake(f"{path}: {type(error).__name__}: {' '.join(str(error).split())}") from error


def text(fault: Exception) -> str:
    """What is told of a fault, in one line."""
    if isinstance(fault, MemoryError):
        return "memory is wanted"
    if isinstance(fault, OSError) and not isinstance(fault, Mistake) and fault.filename:
        return f"{fault.filename}: {fault.strerror}"
    return " ".join(str(fault).split())


def told(name: str, work: Callable, words: Optional[List[str]]) -> int:
    """The status of a command: 0, or 2 where some work is told not to be done or a mistake is told in one line."""
    try:
        done = attempted(work, words)
    except BrokenPipeError:
        os.dup2(os.open(os.devnull, os.O_WRONLY), sys.stdout.fileno())
        return 141
    except KeyboardInterrupt:
        return 130
    if isinstance(done, Exception):
        say(f"{name}: {text(done)}")
    return 2 if done is False or isinstance(done, Exception) else 0


def say(line: str) -> None:
    """A line on standard error, where there is one."""
    with contextlib.suppress(OSError, ValueError):
        if sys.stderr is not None:
            print(line, file=sys.stderr, flush=True)
