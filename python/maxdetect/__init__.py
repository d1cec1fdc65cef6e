"""Maxdetect: sources of astronomical images by their max-trees.

`detect`, `measure`, `filter` and `tree` call the proved program for an image of whole numbers, `detect_tiles` for a
large one. All else is around it, in floating point, and outside of what is proved: `noise` and `noise_map`, and the
command `maxcat`, which goes from any image to a catalogue. `survey` opens what `maxsurvey` keeps of many fields, `add`
gives it a catalogue, and `match` finds the same sources in two. The modules `photometry` and `scaling` are public too;
all others are the package's own.
"""
import importlib
from typing import TYPE_CHECKING, Any, List

from ._starting import begin

if TYPE_CHECKING:
    from . import photometry, scaling
    from ._adding import add
    from ._arrays import catalogue
    from ._columns import DESCRIPTIONS
    from ._errors import Mistake
    from ._estimates import noise, noise_map
    from ._images import save
    from ._kernel import FAULTS, NoProgram, Refusal, detect, filter, find_program, load, measure, read, tree
    from ._matching import match
    from ._surveys import Survey, survey
    from ._tiles import detect_tiles

begin()

__version__ = "1.0.0"
# The module that each name comes from: it is loaded when the name is first asked for, so that a command that wants
# little is there at once.
_MODULES = {
    "DESCRIPTIONS": "_columns",
    "FAULTS": "_kernel",
    "Mistake": "_errors",
    "NoProgram": "_kernel",
    "Refusal": "_kernel",
    "Survey": "_surveys",
    "add": "_adding",
    "catalogue": "_arrays",
    "detect": "_kernel",
    "detect_tiles": "_tiles",
    "filter": "_kernel",
    "find_program": "_kernel",
    "load": "_kernel",
    "match": "_matching",
    "measure": "_kernel",
    "noise": "_estimates",
    "noise_map": "_estimates",
    "read": "_kernel",
    "save": "_images",
    "survey": "_surveys",
    "tree": "_kernel",
}
__all__ = [
    "DESCRIPTIONS",
    "FAULTS",
    "Mistake",
    "NoProgram",
    "Refusal",
    "Survey",
    "add",
    "catalogue",
    "detect",
    "detect_tiles",
    "filter",
    "find_program",
    "load",
    "match",
    "measure",
    "noise",
    "noise_map",
    "photometry",
    "read",
    "save",
    "scaling",
    "survey",
    "tree",
]


def __getattr__(name: str) -> Any:
    """A public name of the package, from the module that has it, or a public module of its."""
    if name in _MODULES:
        value = globals()[name] = getattr(importlib.import_module(f".{_MODULES[name]}", __name__), name)
        return value
    if name in __all__:
        return importlib.import_module(f".{name}", __name__)
    raise AttributeError(f"module {__name__!r} has no attribute {name!r}")


def __dir__() -> List[str]:
    """The public names."""
    return sorted(__all__)
