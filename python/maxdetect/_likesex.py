"""Settings of Source Extractor's as words of `maxcat`."""
import pathlib
import re
from typing import Callable, Dict, List, Tuple

from . import _asked as asked
from ._errors import Mistake

__all__ = ["words"]

Settings = Dict[str, str]
WEIGHTS = {"MAP_RMS": "rms", "MAP_VAR": "variance", "MAP_WEIGHT": "weight"}
FORMS = {"FITS_LDAC": "ldac", "FITS_1.0": "fits", "ASCII_VOTABLE": "votable"}
CHECKS = {
    "BACKGROUND": "background",
    "-BACKGROUND": "subtracted",
    "BACKGROUND_RMS": "rms",
    "APERTURES": "apertures",
}
# Settings that say nothing of a catalogue, or that belong to one that is looked at with them.
SILENT = re.compile(
    r"VERBOSE_TYPE|NTHREADS|MEMORY_\w+|WRITE_XML|X[MS]L_\w+|FITS_UNSIGNED|HEADER_SUFFIX|SATUR_KEY|GAIN_KEY|INTERP_\w+"
    r"|CATALOG_TYPE|PARAMETERS_NAME|WEIGHT_(TYPE|IMAGE)|CHECKIMAGE_(TYPE|NAME)|STARNNW_NAME|SEEING_FWHM|PIXEL_SCALE"
    r"|FLAG_TYPE|ASSOC\w+|PSF_\w+|SOM_\w+|PATTERN_\w+|DGEO_IMAGE|BACKPHOTO_THICK|MAG_GAMMA"
)
# What is so here as well.
USUAL = {
    **{"DETECT_TYPE": "CCD", "THRESH_TYPE": "RELATIVE", "MASK_TYPE": "CORRECT", "DETECT_MAXAREA": "0"},
    **{"BACK_TYPE": "AUTO", "BACK_VALUE": "0.0", "BACK_FILTERSIZE": "3", "BACK_FILTTHRESH": "0.0"},
    **{"BACKPHOTO_TYPE": "GLOBAL", "PHOT_PETROPARAMS": "2.0,3.5", "PHOT_FLUXFRAC": "0.5"},
    **{"PHOT_AUTOAPERS": "0.0,0.0", "DGEO_TYPE": "NONE", "RESCALE_WEIGHTS": "Y", "WEIGHT_GAIN": "Y"},
}
# What means something else here, and what to look at instead.
OTHERWISE = {
    "DETECT_THRESH": "--sigmas counts the noise behind the smoothing",
    "ANALYSIS_THRESH": "there is one threshold",
    "DETECT_MINAREA": "--min-area goes by the smoothing",
    "DEBLEND_MINCONT": "--split-sigmas, or --contrast",
    "DEBLEND_NTHRESH": "all levels count",
    "CLEAN_PARAM": "--no-clean leaves it out",
    "FILTER_NAME": "--fwhm says how wide the Gaussian is",
}


def _settings(path: str) -> Settings:
    """The settings of a file by their names, without those that are empty. Raises Mistake."""
    try:
        lines = pathlib.Path(path).read_text(encoding="latin-1").splitlines()
    except OSError as error:
        raise Mistake(f"{path}: {error.strerror}") from None
    found = {}
    for line in lines:
        name, _, value = line.split("#")[0].strip().partition(" ")
        if name and not re.fullmatch(r"[A-Z][A-Z0-9_]*", name):
            raise Mistake(f"{path}: {name[:40]} is no setting of Source Extractor's")
        if value.strip():
            found[name] = ",".join(re.split(r"[\s,]+", value.strip()))
    return found


def _number(option: str) -> Callable[[str], List[str]]:
    """An option with a number above 0; nothing for others."""

    def made(value: str) -> List[str]:
        try:
            return [option, value] if float(value) > 0 else []
        except ValueError:
            raise Mistake(f"{option} can't be had of {value}") from None

    return made


KNOWN: Dict[str, Callable[[str], List[str]]] = {
    "CATALOG_NAME": lambda value: ["--output", value],
    "MAG_ZEROPOINT": lambda value: ["--zeropoint", value],
    "GAIN": _number("--gain"),
    "SATUR_LEVEL": _number("--saturation"),
    "PHOT_APERTURES": lambda value: ["--apertures", value],
    "PHOT_AUTOPARAMS": lambda value: ["--kron", value],
    "BACK_SIZE": lambda value: ["--mesh", value.split(",")[0]],
    # The default settings name a file that isn't read.
    "FLAG_IMAGE": lambda value: ["--flag-map", value] if pathlib.Path(value).exists() else [],
    "FILTER": lambda value: ["--no-smooth"] if value == "N" else [],
    "CLEAN": lambda value: ["--no-clean"] if value == "N" else [],
}


def _weights(found: Settings) -> Tuple[List[str], List[str]]:
    """The words for weight maps, of the image and of another one to measure in, and what isn't known of them."""
    kinds, names = (found.get(name, "").split(",") for name in ("WEIGHT_TYPE", "WEIGHT_IMAGE"))
    made = []
    if kinds[0] in WEIGHTS and names[0]:
        made += ["--weight", names[0], "--weight-type", WEIGHTS[kinds[0]]]
    if kinds[0] == "BACKGROUND":
        made += ["--rms", "local"]
    known = {"", "NONE", "BACKGROUND", *WEIGHTS}
    unknown = [f"WEIGHT_TYPE {kind}" for kind in kinds if kind not in known]
    return made, unknown + (["the second weight map (--measure-weight)"] if len(names) > 1 else [])


def _checks(found: Settings) -> Tuple[List[str], List[str]]:
    """The words for check images, and those that there aren't."""
    made, unknown, shown = [], [], []
    kinds, names = (found.get(f"CHECKIMAGE_{name}", "").split(",") for name in ("TYPE", "NAME"))
    for number, kind in enumerate(kinds):
        if kind in CHECKS:
            shown.append(CHECKS[kind])
        elif kind == "SEGMENTATION" and number < len(names):
            made += ["--map", names[number]]
        elif kind not in ("", "NONE"):
            unknown.append(f"the check image {kind}")
    return made + (["--check", ",".join(shown)] if shown else []), unknown


def _columns(path: str) -> Tuple[List[str], List[str]]:
    """The words for a file of columns, and those that there aren't."""
    listed = asked.listed(path)
    names = [name for name in listed if asked.is_known(name)]
    return ["--columns", ",".join(names)] if names else [], [name for name in listed if name not in names]


def words(path: str) -> Tuple[List[str], List[str]]:
    """The words that say what a file of settings says, and what of it they don't, each as a few words. Raises Mistake
    where it is no such file.
    """
    found, made, untold = _settings(path), [], []
    for name, value in found.items():
        if name in KNOWN:
            made += KNOWN[name](value)
        elif name in OTHERWISE:
            untold.append(f"{name} ({OTHERWISE[name]})")
        elif not SILENT.fullmatch(name) and value != USUAL.get(name):
            untold.append(name)
    form = FORMS.get(found.get("CATALOG_TYPE", ""))
    columns = _columns(found["PARAMETERS_NAME"]) if "PARAMETERS_NAME" in found else ([], [])
    more, unknown = zip(_weights(found), _checks(found), columns)
    made += sum(more, []) + (["--format", form] if form else [])
    if "CATALOG_TYPE" in found and form is None:
        made += ["--format", "csv"]
        unknown[0].append(f"CATALOG_TYPE {found['CATALOG_TYPE']} (csv is written)")
    return made, untold + sum(unknown, [])
