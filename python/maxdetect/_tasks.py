"""What is asked for of each image, and whether its files can be read and written."""
import argparse
import dataclasses
import os
import pathlib
from typing import Dict, List, Optional

from . import (
    _asked as asked,
    _checks as checks,
    _cosmic as cosmic,
    _detection as detection,
    _headings as headings,
    _images as images,
    _tables as tables,
)
from ._errors import Mistake
from ._telling import say

__all__ = ["Task", "check_files", "check_options", "form_of", "inputs_of", "outputs_of", "task_of"]


@dataclasses.dataclass
class Task:
    """An image file, its fields, the units that these are measured in, further bands, and where its catalogue goes."""

    path: str
    output: str
    fields: List[detection.Field[images.Plane]]
    units: List[Optional[str]]
    bands: List[Dict[str, detection.Field[images.Plane]]]
    survey_field: Optional[str] = None

    @property
    def planes(self) -> List[images.Plane]:
        """All images that are read."""
        fields = [*self.fields, *(other for bands in self.bands for other in bands.values())]
        return [plane for field in fields for plane in field.planes]


def _default_output(path: str, kind: Optional[str] = None) -> str:
    """IMAGE.cat.fits for IMAGE.fits, IMAGE.fits.gz and the like; another end for a catalogue of another kind."""
    base = pathlib.Path(path)
    while base.suffix.lower() in (".gz", ".fz", ".bz2", ".fits", ".fit", ".fts"):
        base = base.with_suffix("")
    return os.fspath(base) + {"ldac": ".ldac", "votable": ".cat.xml"}.get(kind or "fits", f".cat.{kind or 'fits'}")


def _settings(plane: images.Plane, measured: images.Plane, given: argparse.Namespace) -> detection.Settings:
    """How sources are looked for in an image, and measured in it or another one. Gain and saturation that aren't asked
    for are those of the headers.
    """
    alone = given.hdu != "all" and len(given.images) == 1
    return detection.Settings(
        sigmas=given.sigmas,
        fwhm=given.fwhm,
        mesh=given.mesh,
        min_area=given.min_area,
        contrast=given.contrast,
        split_sigmas=given.split_sigmas,
        clean=given.clean,
        cosmic_rays=given.cosmic_rays,
        wide=given.wide,
        weight_type=given.weight_type or "weight",
        value_weight_type=given.measure_weight_type or "weight",
        local=given.rms == "local",
        gain=given.gain or measured.positive("GAIN"),
        saturation=given.saturation if given.saturation is not None else measured.positive("SATURATE"),
        own_gain=plane.positive("GAIN") if measured is not plane else None,
        own_saturation=plane.positive("SATURATE") if measured is not plane else None,
        apertures=given.apertures,
        kron=given.kron,
        vignet=given.vignet or 0,
        workers=given.workers if alone else 1,
    )


def _field(plane: images.Plane, given: argparse.Namespace) -> detection.Field[images.Plane]:
    """An image with what belongs to it."""
    texts = {
        "mask": given.mask,
        "weights": given.weight,
        "values": given.measure,
        "value_weights": given.measure_weight,
        "flag_map": given.flag_map,
    }
    others = {name: images.matching(text, plane, given.plane) for name, text in texts.items() if text}
    return detection.Field(
        plane,
        _settings(plane, others.get("values", plane), given),
        mask=others.get("mask"),
        weights=others.get("weights"),
        values=others.get("values"),
        value_weights=others.get("value_weights"),
        flag_map=others.get("flag_map"),
    )


def _bands(field: detection.Field[images.Plane], given: argparse.Namespace) -> Dict[str, detection.Field[images.Plane]]:
    """For each band that is asked for the same field with the band's image to measure in."""
    found = {}
    for name, text in given.band or []:
        plane, weight = images.matching(text, field.plane, given.plane), dict(given.band_weight or []).get(name)
        settings = dataclasses.replace(
            field.settings,
            gain=plane.positive("GAIN"),
            saturation=plane.positive("SATURATE"),
            own_gain=field.own_gain,
            own_saturation=field.settings.saturation if field.values is None else field.settings.own_saturation,
            vignet=0,
        )
        weights = images.matching(weight, field.plane, given.plane) if weight else None
        found[name] = dataclasses.replace(field, settings=settings, values=plane, value_weights=weights)
    return found


def task_of(path: str, given: argparse.Namespace) -> Task:
    every = given.hdu == "all"
    planes = images.all_opened(path, given.plane) if every else [images.opened(path, given.hdu, given.plane)]
    fields = [_field(plane, given) for plane in planes]
    _tell_inherited(path, fields, given)
    return Task(
        path,
        given.output or _default_output(path, given.format),
        fields,
        [(field.values or field.plane).unit for field in fields],
        [_bands(field, given) for field in fields],
        _survey_field(path, given) if given.survey else None,
    )


def _tell_inherited(path: str, fields: List[detection.Field], given: argparse.Namespace) -> None:
    """Says which numbers of the primary header count for a file's extensions."""
    asked = {"GAIN": given.gain, "SATURATE": given.saturation}
    names = {name for field in fields for name in headings.inherited(field.values or field.plane)}
    told = sorted(name for name in names if asked[name] is None)
    if told:
        say(f"maxcat: {path}: {' and '.join(told)} of the primary header count for its extensions")


def _survey_field(path: str, given: argparse.Namespace) -> str:
    """The field of the survey to which an image belongs: the one that is named, or by the image's own name."""
    from . import _surveys as surveys

    name = given.field or pathlib.Path(_default_output(path)).name.removesuffix(".cat.fits")
    if not surveys.NAME.fullmatch(name):
        raise Mistake(f"{name!r} is no field's name: 1 to 16 letters, digits, underscores or hyphens; give --field")
    return name


def _writable(output: str) -> bool:
    """A file of this name can be made or replaced, or what has it takes what is written, as a pipe does."""
    if os.path.exists(output) and not os.path.isfile(output):
        return not os.path.isdir(output) and os.access(output, os.W_OK)
    folder = os.path.dirname(os.path.realpath(output))
    return os.path.isdir(folder) and os.access(folder, os.W_OK)


def form_of(task: Task, given: argparse.Namespace) -> str:
    """How a file's catalogue is written."""
    return given.format or tables.format_of(task.output)


def outputs_of(task: Task, given: argparse.Namespace) -> List[str]:
    """All files that are written of an image."""
    shown = [checks.name(task.output, kind) for kind in given.check or []]
    return [task.output, *(it for it in (given.map, given.regions, given.plot, given.report) if it), *shown]


def inputs_of(given: argparse.Namespace) -> List[str]:
    """The files that are read beside the images."""
    named = [text for _, text in (given.band or []) + (given.band_weight or [])]
    named += [it for it in (given.weight, given.mask, given.measure, given.measure_weight, given.flag_map) if it]
    return [images.split_name(it)[0] for it in named]


def check_files(given: argparse.Namespace, tasks: List[Task]) -> None:
    """No output is an input or another output, and each can be written."""
    inputs = [*given.images, *inputs_of(given), *([given.survey] if given.survey else [])]
    outputs = [name for task in tasks for name in outputs_of(task, given)]
    for number, output in enumerate(outputs):
        if any(images.same(output, it) for it in inputs):
            raise Mistake(f"{output} is read, so it can't be written")
        if any(images.same(output, it) for it in outputs[:number]):
            raise Mistake(f"{output} is to be written twice")
        if not _writable(output):
            raise Mistake(f"{output} can't be written")
    if given.survey and not _writable(given.survey):
        raise Mistake(f"{given.survey} can't be written")
    for task in tasks:
        form_of(task, given)
    fields = [task.survey_field for task in tasks if task.survey_field]
    for name in fields:
        if fields.count(name) > 1:
            raise Mistake(f"two images would be the survey's field {name}")
    if given.crop and tasks:
        (xmin, xmax, ymin, ymax), (height, width) = given.crop, tasks[0].fields[0].shape
        if xmax < 1 or ymax < 1 or xmin > width or ymin > height:
            raise Mistake(f"--crop: it has no pixel of the image of {width} x {height}")


def check_options(given: argparse.Namespace) -> None:
    """Names that are empty, and options that don't go together."""
    for name in ("output", "map", "regions", "plot", "report", "weight", "mask", "measure", "survey", "field"):
        if getattr(given, name) == "":
            raise Mistake(f"--{name} has an empty name")
    if len(given.images) > 1:
        for name in ("output", "map", "regions", "plot", "report", "field"):
            if getattr(given, name):
                raise Mistake(f"--{name} is for one image, not {len(given.images)}")
    for name in ("plot", "report"):
        if getattr(given, name) and given.hdu == "all":
            raise Mistake(f"--{name} is for one HDU; name it with --hdu")
    if given.plot and pathlib.Path(given.plot).suffix.lower() != ".png":
        raise Mistake(f"{given.plot}: a picture's name ends in .png")
    if given.report and pathlib.Path(given.report).suffix.lower() not in (".html", ".htm"):
        raise Mistake(f"{given.report}: a page's name ends in .html")
    if given.crop and not given.plot:
        raise Mistake("--crop wants a --plot")
    if (given.field or given.survey_unit) and not given.survey:
        raise Mistake(f"--{'field' if given.field else 'survey-unit'} wants a --survey")
    if given.survey and given.hdu == "all":
        raise Mistake("--survey is for one HDU of each image; name it with --hdu")
    if given.weight_type and not given.weight:
        raise Mistake("--weight-type wants a --weight")
    if given.cosmic_rays:
        cosmic.check()
    asked.check(given)
    if given.weight and given.rms == "local":
        raise Mistake("--rms local and --weight exclude each other")
