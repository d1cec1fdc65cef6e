"""Parameters that several public functions have, described once: a line `{name}` of a docstring stands for one."""
import re
from typing import Any, Callable, TypeVar

__all__ = ["described"]

Function = TypeVar("Function", bound=Callable[..., Any])

# What stands behind each name: its type, and what it is.
PARAMETERS = {
    # The program's.
    "threshold": (
        "int",
        "What a pixel of a source has at least, in the image's units; with `mesh` above the background.",
    ),
    "min_area": ("int, default: 1", "The least area of a source, in pixels."),
    "min_flux": ("int, default: 0", "The least flux of a source, in the image's units times pixels."),
    "contrast": (
        "int, default: 5",
        "Which part of its component's flux a source that is split from it has at least, in thousandths.",
    ),
    "mesh": (
        "int, default: 0",
        "The side of the square cells by which the background is told, in pixels; 0 for none.",
    ),
    "flat": ("bool, default: False", "Takes the background in steps, one for each cell."),
    "connect": ("int, default: 4", "How many neighbours a pixel has, 4 or 8."),
    "strips": ("int, default: 1", "Into how many strips the image is cut, which changes nothing but the time."),
    "workers": ("int, default: 1", "How many threads work on the strips, which changes nothing but the time."),
    "blank": ("int, optional", "The value of further pixels that are undefined."),
    "program": ("str or os.PathLike, optional", "The path of the program, by default that of `find_program`."),
    # Those of images of any kind.
    "gain": (
        "float, optional",
        "Electrons for a unit of the image; errors have the sources' own noise then.",
    ),
    "saturation": ("float, optional", "From this value on pixels are saturated, in the image's units."),
    "mask": (
        "array_like of bool, shape (height, width), optional",
        "Where it is true, the image is undefined too.",
    ),
}


def described(function: Function) -> Function:
    """Puts into a function's docstring what its parameters of these names are."""

    def told(line: "re.Match[str]") -> str:
        indent, name = line[1], line[2]
        kind, text = PARAMETERS[name]
        return f"{indent}{name} : {kind}\n{indent}    {text}"

    # Python leaves docstrings out where it is asked to.
    if function.__doc__:
        function.__doc__ = re.sub(r"^( *)\{(\w+)\}$", told, function.__doc__, flags=re.M)
    return function
