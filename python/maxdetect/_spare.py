"""Memory that the C library keeps for later, and gives back to the system."""
import contextlib
import ctypes

__all__ = ["give_back", "keep", "one_heap"]

# The parameters of glibc's mallopt that say how much is free before some is given back, from how many bytes on an array
# has a mapping of its own, and how many heaps there are.
FREE, ALONE, HEAPS = -1, -3, -8
# More bytes than an array of a window has, and how many may be free in all processes together.
LARGE, MOST = 2**25, 2**26


def give_back() -> None:
    """Gives back what is free, behind work whose arrays were larger than those of what follows: only glibc can."""
    with contextlib.suppress(OSError, AttributeError, TypeError):
        ctypes.CDLL(None).malloc_trim(0)


def keep(processes: int) -> None:
    """From here on arrays as large as those of a window take what others have left free: else each has new pages, which
    the system fills with zeros first. In glibc alone, and in so many processes, which are forked later.
    """
    with contextlib.suppress(OSError, AttributeError, TypeError):
        library = ctypes.CDLL(None)
        library.mallopt(ALONE, LARGE)
        library.mallopt(FREE, MOST // processes)


def one_heap() -> None:
    """From here on all threads share one heap, so that what one has left free another one takes: in glibc alone."""
    with contextlib.suppress(OSError, AttributeError, TypeError):
        ctypes.CDLL(None).mallopt(HEAPS, 1)
