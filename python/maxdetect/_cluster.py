"""Tiles on other machines, by a scheduler of Dask's."""
import concurrent.futures
import contextlib
import warnings
from typing import Iterator

from ._errors import Mistake

__all__ = ["executor"]

# How long a scheduler is waited for, in seconds.
PATIENCE = 10


@contextlib.contextmanager
def executor(address: str) -> Iterator[concurrent.futures.Executor]:
    """An executor over the workers of the scheduler at an address, such as tcp://host:8786. What was at work on a
    worker that is lost goes to another one. Raises Mistake where there is no such scheduler, or no Dask.
    """
    try:
        import distributed
    except ImportError:
        raise Mistake(
            "--scheduler wants distributed (Debian: python3-distributed; else: pip install distributed)"
        ) from None
    try:
        with warnings.catch_warnings():
            # What it says of its own libraries is nothing that a user can put right.
            warnings.simplefilter("ignore", DeprecationWarning)
            client = distributed.Client(address, timeout=PATIENCE, set_as_default=False)
    except (OSError, ValueError, TypeError) as error:
        told = " ".join(str(error).split()) or type(error).__name__
        raise Mistake(f"--scheduler: no scheduler of Dask's answers at {address} ({told})") from None
    with client:
        yield client.get_executor()
