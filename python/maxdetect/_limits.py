"""What settings may be, for those who read words before all else is loaded."""
import math
from typing import Dict, NamedTuple, Optional, Sequence

__all__ = ["CHECKS", "FORMATS", "KINDS", "LISTS", "RANGES", "TILE", "Range", "Several"]

# The side of a tile's core, in pixels.
TILE = 1024
# What a weight map has.
KINDS = ("rms", "variance", "weight")
# The check images.
CHECKS = ("background", "subtracted", "rms", "apertures")
# How a catalogue is written, by the end of its name.
FORMATS = {
    ".fits": "fits",
    ".fit": "fits",
    ".csv": "csv",
    ".ecsv": "ecsv",
    ".xml": "votable",
    ".vot": "votable",
    ".votable": "votable",
    ".ldac": "ldac",
}


class Range(NamedTuple):
    """The finite numbers that a setting may be: from `least` on, or with `above` from right above it, to `most`; whole
    ones alone, or odd ones; and 0 besides, with `or_zero`.
    """

    least: float = -math.inf
    most: float = math.inf
    whole: bool = False
    above: bool = False
    odd: bool = False
    or_zero: bool = False

    @property
    def name(self) -> str:
        """What such a number is."""
        form = "d" if self.whole else "g"
        kind = "whole number" if self.whole else "number"
        if self.above:
            return f"{kind} above {self.least:g}" + ("" if self.most == math.inf else f" and up to {self.most:g}")
        if self.least == -math.inf:
            return f"finite {kind}"
        return f"{kind} from {self.least:{form}} " + ("on" if self.most == math.inf else f"to {self.most:{form}}")

    def _holds(self, value: float) -> bool:
        enough = self.least < value if self.above else self.least <= value
        return math.isfinite(value) and enough and value <= self.most and (not self.whole or value == int(value))

    def wrong(self, value: float) -> Optional[str]:
        """What is wrong with a number, as words behind it; None where it is one of them."""
        if self.or_zero and value == 0:
            return None
        if not self._holds(value):
            return f"is neither 0 nor a {self.name}" if self.or_zero else f"isn't a {self.name}"
        return "isn't odd" if self.odd and value % 2 == 0 else None


class Several(NamedTuple):
    """The numbers, so many as `sizes` has, that a setting with several may be; `told` says how many, in words."""

    each: Range
    sizes: range
    told: str

    def wrong(self, values: Sequence[float]) -> Optional[str]:
        """What is wrong with numbers, as words behind them; None where they are such."""
        if len(values) in self.sizes and not any(map(self.each.wrong, values)):
            return None
        return f"isn't {self.told} {self.each.name.replace('number', 'numbers')}"


# The settings with a number. Of them None stands for what is told by the image.
RANGES: Dict[str, Range] = {
    # Noise is told from fewer pixels badly, and of wider cells an image has few.
    "mesh": Range(8, 512, whole=True, or_zero=True),
    "sigmas": Range(0, 1e6, above=True),
    "split_sigmas": Range(0, 1e6),
    "fwhm": Range(0.5, 50, or_zero=True),
    "contrast": Range(0, 1000, whole=True),
    "min_area": Range(1, 2**24, whole=True),
    "vignet": Range(3, 255, whole=True, odd=True, or_zero=True),
    "tile": Range(1, whole=True),
    "workers": Range(1, 64, whole=True),
    **dict.fromkeys(("gain", "own_gain"), Range(0, above=True)),
    **dict.fromkeys(("saturation", "own_saturation"), Range()),
}
# The settings with several.
LISTS: Dict[str, Several] = {
    "apertures": Several(Range(0, 1000, above=True), range(1, 33), "one to 32"),
    "kron": Several(Range(0, 20, above=True), range(2, 3), "two"),
}
