"""Work on many items in an executor, in order and a few ahead."""
import concurrent.futures
import dataclasses
import itertools
import os
from typing import Any, Callable, Iterable, Iterator, List, Optional

__all__ = ["each"]


def _in_flight(executor: concurrent.futures.Executor) -> int:
    """How many items are handed out at once: so many that a worker that is done has another one to do while the first
    of all takes long.
    """
    return 2 * (getattr(executor, "_max_workers", None) or os.cpu_count() or 1)


@dataclasses.dataclass(repr=False, eq=False)
class _Call:
    """The call of a function with an item, as one object: where an item is a pair of a function and its argument, Dask
    would call that, and hand on what it gives.
    """

    work: Callable
    item: Any

    def __call__(self) -> Any:
        return self.work(self.item)


def each(
    executor: Optional[concurrent.futures.Executor],
    work: Callable,
    items: Iterable,
    meanwhile: Optional[Callable[[], None]] = None,
) -> Iterator:
    """What a function gives for each item, in order; a few items ahead are at work in the executor. None: one after
    the other, here. `meanwhile` is called when the first items are at work, twice as many as else, so that there is
    enough to do as long as nothing is taken; and not where none are at work elsewhere.
    """
    if executor is None:
        yield from map(work, items)
        return
    waiting: List[concurrent.futures.Future] = []
    items, most, submit = iter(items), _in_flight(executor), executor.submit

    def hand_out(count: int) -> None:
        """Has so many items at work, or waiting for it."""
        for item in itertools.islice(items, max(0, count - len(waiting))):
            waiting.append(submit(_Call(work, item)))

    try:
        hand_out(most if meanwhile is None else 2 * most)
        if meanwhile is not None:
            meanwhile()
        while waiting:
            result = waiting.pop(0).result()
            hand_out(most)
            yield result
    finally:
        for future in waiting:
            future.cancel()
