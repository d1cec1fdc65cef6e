"""The command `maxcat`: from images to catalogues."""
import argparse
import contextlib
import gc
import shlex
import sys
import warnings
from typing import Iterator, List, Optional

from . import _likesex as likesex
from ._options import parser
from ._starting import ended_by_signals, leave
from ._telling import say, told

__all__ = ["main"]


def _given(words: List[str]) -> argparse.Namespace:
    """What the words ask for, with the settings of another program's that they name. Raises Mistake."""
    given = parser().parse_intermixed_args(words)
    if given.like_sextractor is not None:
        more, untold = likesex.words(given.like_sextractor)
        given = parser().parse_intermixed_args([*more, *words])
        if untold:
            say(f"maxcat: {given.like_sextractor}: not taken: {', '.join(untold)}")
    given.options = shlex.join(words)
    return given


@contextlib.contextmanager
def _kept() -> Iterator[None]:
    """What is loaded meanwhile stays until the end, so that Python needn't look through it for garbage."""
    gc.disable()
    try:
        yield
        gc.freeze()
    finally:
        gc.enable()


def run(words: Optional[List[str]] = None) -> bool:
    """Does what the words say, and tells for each image what came of it: False where one of several wasn't done.
    Raises Mistake.
    """
    given = _given(sys.argv[1:] if words is None else words)
    # Until all is loaded a signal ends the command at once: there is nothing to clean up.
    with _kept() if words is None else contextlib.nullcontext():
        from . import _running as running

    with ended_by_signals():
        return running.run(given)


def main(words: Optional[List[str]] = None) -> int:
    """The command `maxcat`."""
    warnings.showwarning = lambda message, *rest, **more: say(f"maxcat: {' '.join(str(message).split())}")
    return told("maxcat", run, words)


if __name__ == "__main__":
    leave(main())
