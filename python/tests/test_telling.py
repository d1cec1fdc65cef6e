"""How commands tell what came of their work, and how far it is."""
import io
import sys

import pytest

from maxdetect import _docs as docs, _running as running, _telling as telling
from maxdetect._errors import Mistake


class Terminal(io.StringIO):
    """Standard error that is a terminal."""

    def isatty(self):
        return True


def raising(fault):
    """Some work that ends so."""

    def work(*given):
        raise fault

    return work


def test_a_fault_without_a_file_names_the_one_at_work():
    with pytest.raises(Mistake, match="^cat.fits: No space left on device$"), telling.about("cat.fits"):
        raise OSError(28, "No space left on device")
    with pytest.raises(OSError, match="other.fits"), telling.about("cat.fits"):
        raise FileNotFoundError(2, "No such file or directory", "other.fits")
    with pytest.raises(BrokenPipeError), telling.about("cat.fits"):
        raise BrokenPipeError(32, "Broken pipe")


@pytest.mark.parametrize(
    "fault, line",
    [
        (Mistake("a\n b"), "a b"),
        (MemoryError(), "memory is wanted"),
        (ImportError("No module named 'sep'"), "No module named 'sep'"),
        (PermissionError(13, "Permission denied", "cat.fits"), "cat.fits: Permission denied"),
    ],
)
def test_what_a_user_can_put_right_is_one_line(capsys, fault, line):
    assert telling.told("maxcat", raising(fault), []) == 2
    assert capsys.readouterr().err == f"maxcat: {line}\n"


def test_other_faults_of_one_image_name_it():
    for fault, line in (
        (MemoryError(), "a.fits: memory is wanted"),
        (ZeroDivisionError("by\nnought"), "a.fits: ZeroDivisionError: by nought"),
        (OSError(5, "Input/output error"), "a.fits: Input/output error"),
    ):
        with pytest.raises(Mistake) as told:
            telling.with_image("a.fits", raising(fault))
        assert str(told.value) == line


def test_the_status_tells_how_a_command_ended(monkeypatch, capsys):
    turned = []
    monkeypatch.setattr(telling.os, "dup2", lambda *numbers: turned.append(numbers))
    monkeypatch.setattr(sys, "stdout", sys.__stdout__)
    assert telling.told("maxcat", raising(BrokenPipeError()), []) == 141 and len(turned) == 1
    assert telling.told("maxcat", raising(KeyboardInterrupt()), []) == 130
    assert [telling.told("maxcat", lambda words, it=it: it, []) for it in (True, False, None)] == [0, 2, 0]
    assert capsys.readouterr().err == ""


def test_nobody_may_listen(monkeypatch):
    for stream in (None, io.StringIO()):
        monkeypatch.setattr(sys, "stderr", stream)
        if stream is not None:
            stream.close()
        telling.say("a line")


def test_a_terminal_has_a_bar_until_the_end(monkeypatch):
    monkeypatch.setattr(sys, "stderr", Terminal())
    progress = running._Progress(3)
    progress(1)
    # What is shown later goes by the time.
    assert "0/3" in sys.stderr.getvalue() and progress._bar.n == 1
    progress.close()
    with pytest.raises(Mistake, match="the command has ended"):
        progress(1)


def test_elsewhere_there_is_no_bar(capsys):
    progress = running._Progress(3)
    progress(3)
    progress.close()
    assert capsys.readouterr().err == ""


def test_parameters_are_described_once():
    def plain():
        pass

    def told(mesh):
        """What it does.

        {mesh}
        """

    assert docs.described(plain) is plain and plain.__doc__ is None
    assert "mesh : int, default: 0\n            The side of the square cells" in docs.described(told).__doc__
