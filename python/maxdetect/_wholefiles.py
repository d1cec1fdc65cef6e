"""Files that appear whole or not at all.

Each file is written under a temporary name beside the one that is wanted, which it gets at the end; so no reader sees
half a file, and a failed run leaves an earlier file as it was.
"""
import contextlib
import os
import pathlib
import secrets
import shutil
import stat
import tempfile
from typing import Dict, Iterable, Iterator, Union

from ._errors import Mistake

__all__ = ["whole_file", "whole_files"]


@contextlib.contextmanager
def whole_file(path: Union[str, os.PathLike]) -> Iterator[str]:
    """The temporary name under which a file is written; it gets the name `path` if all goes well, and else is gone.

    Where `path` is something other than a file, such as a pipe or a terminal, all is written to it at the end.
    """
    try:
        kind = os.stat(path).st_mode
    except FileNotFoundError:
        kind = stat.S_IFREG
    if stat.S_ISDIR(kind):
        raise Mistake(f"{path} is a folder")
    if stat.S_ISREG(kind):
        with _renamed(path) as name:
            yield name
        return
    with tempfile.TemporaryDirectory() as folder:
        name = os.path.join(folder, "whole" + pathlib.Path(path).suffix[:16])
        yield name
        # Writers may remove a file that is there before they write, so the pipe's name isn't given to them.
        try:
            with open(name, "rb") as whole, open(path, "wb") as target:
                shutil.copyfileobj(whole, target)
        except OSError as error:
            error.filename = os.fspath(path)
            raise


@contextlib.contextmanager
def _renamed(path: Union[str, os.PathLike]) -> Iterator[str]:
    """A new file beside a file, which takes its place at the end, or is gone where that isn't reached."""
    target = pathlib.Path(os.path.realpath(path))
    # With the same end of the name, by which writers choose a form.
    name = os.fspath(target.parent / f".maxdetect.{secrets.token_hex(8)}.part{target.suffix[:16]}")
    try:
        os.close(os.open(name, os.O_CREAT | os.O_EXCL | os.O_WRONLY, 0o666))
    except OSError as error:
        raise OSError(error.errno, error.strerror, os.fspath(path)) from None
    try:
        yield name
        os.replace(name, target)
    except BaseException as error:
        with contextlib.suppress(FileNotFoundError):
            os.unlink(name)
        if isinstance(error, OSError) and error.filename == name:
            error.filename = os.fspath(path)
        raise


@contextlib.contextmanager
def whole_files(paths: Iterable[str]) -> Iterator[Dict[str, str]]:
    """For each of several files the temporary name under which it is written; they get their own names together at
    the end, or are gone.
    """
    with contextlib.ExitStack() as stack:
        # The last to be entered is the first to be written: a pipe may fail, and files be gone then.
        last = sorted(paths, key=lambda path: os.path.exists(path) and not os.path.isfile(path))
        yield {path: stack.enter_context(whole_file(path)) for path in last}
