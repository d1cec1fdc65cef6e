"""Which outputs of an earlier run still hold."""
import os
from typing import Iterable

__all__ = ["hold"]


def hold(outputs: Iterable[str], inputs: Iterable[str]) -> bool:
    """All outputs are files that are there, and none is older than an input."""
    try:
        made = min(os.stat(path).st_mtime_ns for path in outputs if not os.path.isdir(path))
        return made >= max(os.stat(path).st_mtime_ns for path in inputs)
    except (OSError, ValueError):
        return False
