"""Measures how well sources are found and measured in scenes that are hard, by `maxcat` and its peers in one run.

usage: /usr/bin/python3 bench/scenes.py [--seeds 1,2] [--scenes galaxies,..] [--programs maxcat,..] [--maxcat WORDS]
           [--depth] [--empty]

It prints tables as docs/GUIDE.md has them: of each scene (bench/fields.py) what each program (bench/peers.py) found,
what of it is false, and what is a piece of something else; how faint half of the stars and galaxies are found; fluxes,
their errors, and places. Programs run at their defaults; `--depth` also at the thresholds that give one false source
a field of white noise; `--empty` counts what is found in fields without sources. With `--maxcat` other words are given
to `maxcat`, as `--maxcat="--no-smooth"`.
"""
import argparse
import shlex
from typing import Dict, List, NamedTuple

import numpy
from scipy import ndimage, optimize
from scipy.spatial import cKDTree

import fields
import peers

# A place is a source's where the light around it is less than this share of the noise.
FAINT = 0.3
BISECTIONS = 6
# The word that sets a program's threshold, and between which values it is looked for.
THRESHOLDS = {
    "maxcat": ("--sigmas={}", 3.0, 6.0),
    "source-extractor": ("-DETECT_THRESH {}", 0.7, 4.0),
    "photutils": ("{}", 0.7, 4.0),
}


class Matched(NamedTuple):
    """For each source of the truth the number of what was found of it, or -1; how many detections are false, and how
    many are pieces of something else.
    """

    found: numpy.ndarray
    false: int
    pieces: int


def _near(field: fields.Field) -> numpy.ndarray:
    """How far from a source's centre a detection may lie, by its kind."""
    radius, kind = field.truth["radius"], field.truth["kind"]
    by_kind = [numpy.maximum(2, 0.5 * radius), 0.7 * radius, numpy.full(len(kind), 15.0)]
    kinds = [kind == fields.GALAXY, kind == fields.WIDE, kind == fields.SPIRAL]
    return numpy.select(kinds, by_kind, max(1.5, 0.6 * field.width))


def _least_area(source: numpy.void) -> float:
    """How many pixels a detection has at least that is this source's, and not that of a star before it."""
    return {fields.WIDE: 0.15 * numpy.pi * source["radius"] ** 2, fields.SPIRAL: 5000}.get(source["kind"], 0)


def matched(field: fields.Field, found: peers.Found) -> Matched:
    """Gives each source, the brightest first, the nearest detection that no brighter one has."""
    truth, owner = field.truth, numpy.full(len(field.truth), -1)
    known = numpy.flatnonzero(numpy.isfinite(found.x) & numpy.isfinite(found.y))
    free = numpy.zeros(len(found), dtype=bool)
    free[known] = True
    tree = cKDTree(numpy.column_stack([found.x[known], found.y[known]])) if len(known) else None
    near = _near(field)
    for k in numpy.argsort(-truth["flux"]) if tree is not None else []:
        around = known[tree.query_ball_point((truth["x"][k], truth["y"][k]), near[k])]
        around = around[free[around] & (found.area[around] >= _least_area(truth[k]))]
        if len(around):
            owner[k] = around[numpy.hypot(found.x[around] - truth["x"][k], found.y[around] - truth["y"][k]).argmin()]
            free[owner[k]] = False
    light = ndimage.uniform_filter(field.light, 3) / field.noise
    rows, columns = (numpy.clip(numpy.rint(it[free]).astype(int), 0, fields.SIDE - 1) for it in (found.y, found.x))
    faint = light[rows, columns] < FAINT
    return Matched(owner, int(faint.sum()), int((~faint).sum()))


# ---- figures


def half_found(magnitudes: numpy.ndarray, found: numpy.ndarray) -> float:
    """The magnitude at which half of the sources are found: a logistic curve fitted by likelihood, NaN without one."""
    if len(magnitudes) < 20 or found.sum() < 5:
        return numpy.nan

    def chance(parameters):
        middle, steep, most = parameters
        return numpy.clip(
            1 / (1 + numpy.exp(-most)) / (1 + numpy.exp((magnitudes - middle) / numpy.exp(steep))), 1e-6, 1 - 1e-6
        )

    def unlikely(parameters):
        it = chance(parameters)
        return -numpy.log(numpy.where(found, it, 1 - it)).sum()

    begins = (numpy.quantile(magnitudes[found], 0.9), numpy.median(magnitudes))
    fits = [
        optimize.minimize(unlikely, (begin, -1.2, 2.0), method="Nelder-Mead", options={"maxiter": 1500})
        for begin in begins
    ]
    middle, steep, most = min(fits, key=lambda fit: fit.fun).x
    share = 1 / (1 + numpy.exp(-most))
    return middle + numpy.exp(steep) * numpy.log(max(2 * share - 1, 1e-3)) if share > 0.5 else numpy.nan


def scatter(values: numpy.ndarray) -> float:
    """A standard deviation that outliers don't draw: by the median of what values lie apart from their median."""
    return 1.4826 * numpy.median(numpy.abs(values - numpy.median(values))) if len(values) else numpy.nan


class Outcome(NamedTuple):
    """What a program made of the fields of a scene: their truths one behind the other, and for each source whether it
    was found, its flux over the true one, its error's pull, and how far off its place is.
    """

    truth: numpy.ndarray
    found: numpy.ndarray
    ratio: numpy.ndarray
    pull: numpy.ndarray
    apart: numpy.ndarray
    false: int
    pieces: int
    seconds: float


def outcome(program: peers.Program, made: List[fields.Field], words: List[str]) -> Outcome:
    parts, false, pieces, seconds = [], 0, 0, 0.0
    for field in made:
        found = program.find(field.image, *words)
        match = matched(field, found)
        there, truth = match.found >= 0, field.truth
        at = numpy.where(there, match.found, 0)
        of = [it[at] if len(found) else numpy.zeros(len(at)) for it in (found.flux, found.error, found.x, found.y)]
        with numpy.errstate(all="ignore"):
            columns = [of[0] / truth["flux"], (of[0] - truth["flux"]) / of[1]]
        columns.append(numpy.hypot(of[2] - truth["x"], of[3] - truth["y"]))
        parts.append([truth, there, *(numpy.where(there, it, numpy.nan) for it in columns)])
        false, pieces, seconds = false + match.false, pieces + match.pieces, seconds + found.seconds
    return Outcome(*(numpy.concatenate(it) for it in zip(*parts)), false, pieces, seconds / len(made))


def calibrated(name: str, program: peers.Program, seeds: List[int]) -> List[str]:
    """The words with which a program finds about one false source in a field of white noise."""
    word, low, high = THRESHOLDS[name]
    empty = [fields.empty("white", 1000 + seed) for seed in seeds]
    for _ in range(BISECTIONS):
        middle = (low + high) / 2
        count = sum(len(program.find(field.image, *word.format(f"{middle:.3f}").split())) for field in empty)
        low, high = (middle, high) if count > len(empty) else (low, middle)
    return word.format(f"{high:.3f}").split()


# ---- tables

BINS = (18, 20, 21, 22, 23, 24)


def counts(result: Outcome) -> str:
    """Found, false and pieces; of scenes with faint wide sources these are counted apart."""
    kinds = result.truth["kind"]
    apart = [kind for kind in (fields.WIDE, fields.SPIRAL) if (kinds == kind).any()]
    usual = result.found[~numpy.isin(kinds, apart)].sum()
    more = "".join(f" + {result.found[kinds == kind].sum()} {kind}" for kind in apart)
    return f"{usual}{more} / {result.false} / {result.pieces}"


def depths(result: Outcome) -> str:
    """How faint half of the stars and of the galaxies are found."""
    bright, kinds = fields.magnitudes(result.truth["flux"]), result.truth["kind"]
    told = [half_found(bright[kinds == kind], result.found[kinds == kind]) for kind in (fields.STAR, fields.GALAXY)]
    return ", ".join(f"{it:.2f}" for it in told if numpy.isfinite(it)) or "-"


def fluxes(result: Outcome, kind: str, low: float, high: float) -> str:
    """The median of the flux over the true one, its scatter, and the scatter of the errors' pulls."""
    bright = fields.magnitudes(result.truth["flux"])
    chosen = (result.truth["kind"] == kind) & (bright >= low) & (bright < high) & numpy.isfinite(result.ratio)
    if chosen.sum() < 8:
        return "-"
    ratio, pull = result.ratio[chosen], result.pull[chosen]
    return f"{numpy.median(ratio):.3f} {scatter(ratio):.3f} {scatter(pull):.2f}"


def places(result: Outcome) -> str:
    """The median distance from the true places, of stars of 19 to 21 and of 22 to 23."""
    bright, star = fields.magnitudes(result.truth["flux"]), result.truth["kind"] == fields.STAR
    chosen = [
        result.apart[star & result.found & (bright >= low) & (bright < high)] for low, high in ((19, 21), (22, 23))
    ]
    return ", ".join(f"{numpy.median(it):.3f}" if len(it) else "-" for it in chosen)


def _table(heading: List[str], rows: List[List[str]]) -> None:
    for row in (heading, ["---"] * len(heading), *rows):
        print(f"| {' | '.join(row)} |")
    print(flush=True)


def show(results: Dict[str, Dict[str, Outcome]], programs: Dict[str, peers.Program]) -> None:
    """Prints the tables of some scenes' outcomes."""
    names = [programs[name].name for name in programs]
    for title, told in (("found / false / pieces", counts), ("half are found at", depths), ("places", places)):
        rows = [[fields.SCENES[scene].text, *(told(of[name]) for name in programs)] for scene, of in results.items()]
        _table([title, *names], rows)
    for kind in (fields.STAR, fields.GALAXY):
        rows = []
        for scene, of in results.items():
            for low, high in zip(BINS, BINS[1:]):
                cells = [fluxes(of[name], kind, low, high) for name in programs]
                if any(cell != "-" for cell in cells):
                    rows.append([f"{fields.SCENES[scene].text}, {low} to {high}", *cells])
        if rows:
            _table([f"fluxes of {'galaxies' if kind == fields.GALAXY else 'stars'}", *names], rows)
    rows = [
        [fields.SCENES[scene].text, *(f"{of[name].seconds:.1f}" for name in programs)] for scene, of in results.items()
    ]
    _table(["seconds", *names], rows)


def show_empty(programs, words, seeds) -> None:
    """Prints how many sources each program finds in fields that have none."""
    rows = []
    for kind in fields.EMPTY:
        made = [fields.empty(kind, seed) for seed in seeds]
        found = [sum(len(programs[name].find(field.image, *words[name])) for field in made) for name in programs]
        rows.append([kind, *(f"{count / len(made):.1f}" for count in found)])
    _table(["empty fields", *(program.name for program in programs.values())], rows)


def main() -> None:
    parser = argparse.ArgumentParser(description="finding and measuring sources in hard scenes")
    parser.add_argument("--seeds", default="1")
    parser.add_argument("--scenes", default=",".join(fields.SCENES))
    parser.add_argument("--programs", default=",".join(peers.there()))
    parser.add_argument("--maxcat", default="")
    parser.add_argument("--depth", action="store_true")
    parser.add_argument("--empty", action="store_true")
    given = parser.parse_args()
    seeds = [int(seed) for seed in given.seeds.split(",")]
    programs = {name: peers.PROGRAMS[name] for name in given.programs.split(",")}
    words = {name: shlex.split(given.maxcat) if name == "maxcat" else [] for name in programs}
    ways = [("at their defaults", programs, words)]
    if given.depth:
        alike = {name: programs[name] for name in programs if name in THRESHOLDS}
        at = {name: words[name] + calibrated(name, alike[name], seeds) for name in alike}
        ways.append((f"at one false source a field ({at})", alike, at))
    for title, some, said in ways:
        print(f"{title}\n")
        if given.empty:
            show_empty(some, said, seeds)
        results = {}
        for scene in given.scenes.split(","):
            made = [fields.make(scene, seed) for seed in seeds]
            results[scene] = {name: outcome(some[name], made, said[name]) for name in some}
        show(results, some)


if __name__ == "__main__":
    main()
