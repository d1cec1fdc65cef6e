"""The images of a command: one after the other or several at work at once, and what is told of each."""
import argparse
import concurrent.futures
import contextlib
import dataclasses
import math
import shlex
import sys
import warnings
from typing import Callable, ContextManager, List, Optional, Tuple, Union

from astropy.utils.exceptions import AstropyWarning

from . import _asked as asked, _kernel as kernel, _measuring as measuring, _pools as pools, _resuming as resuming
from . import _cataloguing as cataloguing, _detection as detection, _spare as spare
from ._errors import Mistake
from ._executors import each
from ._tasks import Task, check_files, check_options, inputs_of, outputs_of, task_of
from ._telling import attempted, say, text, with_image

__all__ = ["run"]

Executor = concurrent.futures.Executor


def _nothing(count: int) -> None:
    """Where nobody looks at the progress."""


class _Progress:
    """A bar on a terminal, and nothing elsewhere. Once it is closed, work that goes on in threads ends by it."""

    def __init__(self, count: int):
        self._bar, self._closed = None, False
        if sys.stderr is not None and sys.stderr.isatty():
            from tqdm import tqdm

            self._bar = tqdm(total=count, unit="tile", leave=False)

    def __call__(self, count: int) -> None:
        if self._closed:
            raise Mistake("the command has ended")
        if self._bar is not None:
            self._bar.update(count)

    def close(self) -> None:
        self._closed = True
        if self._bar is not None:
            self._bar.close()


def _count(tasks: List[Task]) -> int:
    """How many tiles there are."""
    return sum(math.prod(-(-side // detection.TILE) for side in field.shape) for task in tasks for field in task.fields)


def _outcome(item: Union[Task, Exception], work: Callable, *given) -> Union[str, Exception]:
    """What some work on a file gives, or the fault that came in its way."""
    if not isinstance(item, Task):
        return item
    found = attempted(with_image, item.path, work, *given)
    return Mistake(f"{item.path}: {found}") if isinstance(found, pools.Lost) else found


@dataclasses.dataclass
class _File:
    """The work on a file, whose tiles run in a pool where there is one."""

    given: argparse.Namespace
    pool: Optional[Executor] = None
    progress: Callable[[int], None] = _nothing

    def __call__(self, item: Union[Task, Exception]) -> Union[str, Exception]:
        return _outcome(item, self._work, item)

    def _work(self, item: Task) -> str:
        if self.given.resume and resuming.hold(outputs_of(item, self.given), [item.path, *inputs_of(self.given)]):
            return f"{shlex.quote(item.output)} is there"
        return cataloguing.done(item, self.given, self.pool, self.progress)


@dataclasses.dataclass
class _Elsewhere:
    """The same by one of several workers."""

    given: argparse.Namespace
    pool: Executor
    progress: Callable[[int], None]

    def __call__(self, item: Union[Task, Exception]) -> Union[str, Exception]:
        return _outcome(item, self._work, item)

    def _work(self, item: Task) -> str:
        self.progress(0)
        found = self.pool.submit(_File(self.given), item).result()
        self.progress(_count([item]))
        if isinstance(found, Exception):
            raise found
        return found


def _tiles_pool(given: argparse.Namespace, good: List[Task]) -> Optional[ContextManager[Executor]]:
    """What tiles run in, or None where that isn't worth while. Raises Mistake."""
    if given.scheduler is not None:
        from . import _cluster as cluster

        return cluster.executor(given.scheduler)
    if given.workers == 1 or not any(max(field.shape) > measuring.BLOCK for task in good for field in task.fields):
        return None
    # A process would unpack a compressed image by itself, and be sent the pixels that cosmic rays have hit.
    if given.cosmic_rays or not all(plane.mapped for task in good for plane in task.planes):
        return concurrent.futures.ThreadPoolExecutor(given.workers)
    # One for the map of each image that is at work.
    return pools.workers(given.workers, files=len(good))


def _executors(
    stack: contextlib.ExitStack, given: argparse.Namespace, good: List[Task]
) -> Tuple[Optional[Executor], Optional[Executor], Optional[Executor]]:
    """What so many images run in, what their tiles do, and what does the work on a whole file; None where they follow
    each other. Raises Mistake.
    """
    together = min(given.workers, len(good))
    # What is left first is what the others wait for.
    files = stack.enter_context(concurrent.futures.ThreadPoolExecutor(together)) if together > 1 else None
    if given.scheduler is None and 1 < given.workers <= len(good):
        # Once for all workers, as the first image wants it. What is wrong with it is theirs to tell.
        with contextlib.suppress(Exception):
            cataloguing.load(good[0], given)
        return files, None, stack.enter_context(pools.workers(together))
    tiles = _tiles_pool(given, good)
    return files, None if tiles is None else stack.enter_context(tiles), None


def _ready(given: argparse.Namespace) -> List[Union[Task, Exception]]:
    """What is asked for of each image, or what is wrong with it, when the programs are there that are wanted. Raises
    Mistake.
    """
    check_options(given)
    given.names = asked.names_of(given)
    every = [attempted(with_image, path, task_of, path, given) for path in given.images]
    good = [item for item in every if isinstance(item, Task)]
    check_files(given, good)
    if good:
        kernel.find_program()
        if any(max(field.shape) > detection.TILE for task in good for field in task.fields):
            kernel.find_program(name="maxwide")
        if given.survey:
            kernel.find_program(name="maxsurvey")
    return every


def run(given: argparse.Namespace) -> bool:
    """Does what is asked for, and tells for each image what came of it: False where one of several wasn't done. Raises
    Mistake.
    """
    warnings.simplefilter("ignore", AstropyWarning)
    warnings.simplefilter("ignore", RuntimeWarning)
    spare.keep(given.workers)
    every, all_done = _ready(given), True
    good = [item for item in every if isinstance(item, Task)]
    with contextlib.ExitStack() as stack:
        # Processes are forked before there is a thread.
        files, tiles, elsewhere = _executors(stack, given, good)
        progress = _Progress(_count(good))
        stack.callback(progress.close)
        work: Union[_File, _Elsewhere] = _File(given, tiles, progress)
        if elsewhere is not None:
            work = _Elsewhere(given, elsewhere, progress)
        for answer in each(files, work, every):
            if isinstance(answer, str):
                print(answer, flush=True)
            else:
                say(f"maxcat: {text(answer)}")
                all_done = False
    return all_done
