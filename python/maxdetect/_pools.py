"""Several workers: processes where the system can fork them, and else threads.

SEP holds Python's lock while it measures, so threads would measure one after the other.
"""
import concurrent.futures
import contextlib
import ctypes
import functools
import gc
import multiprocessing
import multiprocessing.process
import os
import queue
import signal
import sys
import tempfile
import threading
from multiprocessing.reduction import ForkingPickler
from typing import IO, Any, Callable, Iterator, NamedTuple, NoReturn, Optional, Tuple

from ._errors import Mistake

__all__ = ["Lost", "Processes", "workers"]

# Linux's request for a signal when the parent is gone.
DEATH_SIGNAL = 1
# How many seconds a worker has for cleaning up.
PATIENCE = 10


class Lost(Mistake):
    """A worker was ended before it was done."""

    def __init__(self):
        super().__init__("a worker was ended, as where memory is wanted; fewer --workers take less")


def _can_fork() -> bool:
    """The system forks processes, and safely so: that of macOS doesn't."""
    return sys.platform != "darwin" and "fork" in multiprocessing.get_all_start_methods()


def _end(number, frame) -> NoReturn:
    raise SystemExit(128 + number)


def _hear(parent: int) -> None:
    """A worker is ended by its parent alone, as an exit would, so that it leaves no half of a file; and at once where
    the parent is gone.
    """
    for name in ("SIGINT", "SIGHUP"):
        signal.signal(getattr(signal, name), signal.SIG_IGN)
    signal.signal(signal.SIGTERM, _end)
    with contextlib.suppress(OSError, AttributeError):
        ctypes.CDLL(None).prctl(DEATH_SIGNAL, signal.SIGKILL)
    if os.getppid() != parent:
        raise SystemExit(1)


def _answer(work: Callable, given: tuple) -> Any:
    """Whether some work was done, and what it gives or what came in its way."""
    try:
        return True, work(*given)
    except (Exception, KeyboardInterrupt) as fault:  # noqa: BLE001  All of them are raised again, by the parent.
        return False, fault


def _serve(connection, parent: int) -> NoReturn:
    """The whole of a worker: it does what it is sent, until it is sent nothing more."""
    try:
        _hear(parent)
        sent: Iterator[Tuple[Callable, tuple]] = iter(connection.recv, None)
        for work, given in sent:
            answer = _answer(work, given)
            try:
                connection.send(answer)
            except (TypeError, AttributeError) as fault:
                connection.send((False, Mistake(f"{type(answer[1]).__name__} can't be sent: {fault}")))
    except (EOFError, OSError):
        pass
    finally:
        os._exit(0)


class _Worker(NamedTuple):
    process: multiprocessing.process.BaseProcess
    connection: Any


def _begun() -> _Worker:
    context = multiprocessing.get_context("fork")
    # What is there already stays in pages that all share.
    gc.freeze()
    here, there = context.Pipe()
    process = context.Process(target=_serve, args=(there, os.getpid()), daemon=True)
    process.start()
    # So that nobody but the worker has this end, and the other one hears of it when that is gone.
    there.close()
    return _Worker(process, here)


class Processes(concurrent.futures.Executor):
    """Forked workers, all of them begun at once, so before there are threads. A thread for each waits for its answers.
    Where one is killed its work ends in Lost, and the others go on. They are forked with so many files open in which
    they and their parent can share what is too much to be sent.
    """

    forked = True

    def __init__(self, count: int, files: int = 0):
        self._files: "queue.SimpleQueue[IO[bytes]]" = queue.SimpleQueue()
        with contextlib.suppress(OSError):
            for _ in range(files):
                self._files.put(tempfile.TemporaryFile())
        self._max_workers, self._left, self._lock = count, count, threading.Lock()
        self._free: "queue.SimpleQueue[Optional[_Worker]]" = queue.SimpleQueue()
        self._workers = [_begun() for _ in range(count)]
        for worker in self._workers:
            self._free.put(worker)
        self._threads = concurrent.futures.ThreadPoolExecutor(count)

    def submit(self, work: Callable[..., Any], /, *given: Any, **named: Any) -> concurrent.futures.Future:
        """What a worker will give for some work, which is pickled, as is what it gives."""
        if named:
            work = functools.partial(work, **named)
        return self._threads.submit(self._ask, work, given)

    @contextlib.contextmanager
    def file(self) -> Iterator[Optional[IO[bytes]]]:
        """An empty file that all workers have open, or None where none is left. It serves again if all goes well: else
        one of them may be at work on it still.
        """
        try:
            file = self._files.get_nowait()
        except queue.Empty:
            yield None
            return
        with contextlib.ExitStack() as stack:
            stack.callback(file.close)
            yield file
            file.truncate(0)
            stack.pop_all()
            self._files.put(file)

    def _ask(self, work: Callable, given: tuple) -> Any:
        # What can't be sent takes no worker.
        message = ForkingPickler.dumps((work, given))
        worker = self._free.get()
        if worker is None:
            self._free.put(None)
            raise Lost
        try:
            worker.connection.send_bytes(message)
            done, value = worker.connection.recv()
        except BaseException as fault:
            # Nobody knows then what it is at.
            with self._lock:
                self._left -= 1
                if not self._left:
                    self._free.put(None)
            if isinstance(fault, (EOFError, OSError)):
                raise Lost from None
            raise
        self._free.put(worker)
        if not done:
            raise value
        return value

    def shutdown(self, wait: bool = True, *, cancel_futures: bool = False) -> None:
        """Ends the workers once all is done that was submitted and isn't cancelled."""
        self._threads.shutdown(True, cancel_futures=cancel_futures)
        for worker in self._workers:
            with contextlib.suppress(OSError):
                worker.connection.send(None)
        # All of them leave at once.
        for worker in self._workers:
            worker.process.join(PATIENCE)
            worker.connection.close()
        while not self._files.empty():
            self._files.get().close()

    def __exit__(self, kind, value, traceback):
        """Where an exception leaves the block, what is at work ends there."""
        if kind is not None:
            for worker in self._workers:
                worker.process.terminate()
            for worker in self._workers:
                worker.process.join(PATIENCE)
                worker.process.kill()
        self.shutdown(cancel_futures=kind is not None)


def workers(count: int, files: int = 0) -> concurrent.futures.Executor:
    """So many workers. Processes have so many files open besides, which threads don't want."""
    return Processes(count, files) if _can_fork() else concurrent.futures.ThreadPoolExecutor(count)
