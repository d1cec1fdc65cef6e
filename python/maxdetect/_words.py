"""What the words of the commands have in common: numbers within a range, and one line for what is wrong."""
import argparse
import math
import shlex
from typing import Any, Callable, List, NoReturn, Tuple

from ._errors import Mistake
from ._limits import Range, Several


class Parser(argparse.ArgumentParser):
    """Raises Mistake with what is wrong, in one line."""

    def convert_arg_line_to_args(self, line: str) -> List[str]:
        """The words of a line in a file of options, as a shell parts them; # begins a comment."""
        try:
            return shlex.split(line, comments=True)
        except ValueError as error:
            self.error(f"{line.strip()}: {error}")

    def error(self, message: str) -> NoReturn:
        raise Mistake(f"{message} ({self.prog} --help tells the options)")


def called(name: str) -> Callable[[Callable], Callable]:
    """Says what a parser reads, for the line on a word that is none."""

    def named(parse: Callable) -> Callable:
        parse.__name__ = name
        return parse

    return named


def within(range: Range) -> Callable[[str], Any]:
    """A parser of the numbers of a range."""

    @called("whole number" if range.whole else "number")
    def parse(text: str) -> Any:
        value = int(text) if range.whole else float(text)
        fault = range.wrong(value)
        if fault:
            raise argparse.ArgumentTypeError(f"{text} {fault}")
        return value

    return parse


def several(wanted: Several, name: str, form: str = "") -> Callable[[str], Tuple[float, ...]]:
    """A parser of numbers that are parted by commas, called by this name; `form` is told of them besides."""

    @called(name)
    def parse(text: str) -> Tuple[float, ...]:
        found = tuple(float(each) for each in text.split(","))
        fault = wanted.wrong(found)
        if fault:
            raise argparse.ArgumentTypeError(f"{text} {fault}{form}")
        return found

    return parse


def finite(above: float = -math.inf) -> Callable[[str], float]:
    """A parser of finite numbers above a bound."""
    return within(Range(above, above=above != -math.inf))


def whole(least: int, most: float = math.inf) -> Callable[[str], int]:
    """A parser of whole numbers from `least` on, or to `most`."""
    return within(Range(least, most, whole=True))
