"""Times `maxcat` beside one script of SEP and beside Source Extractor's program, where that is installed, and a large
image's memory, in one run; prints a table in Markdown.

usage: /usr/bin/python3 bench/speed.py MAXDETECT MAXWIDE [--runs N] [--workers N] [--side SIDE] [--pixels-a-star N]
           [--large [SIDE]] [--only-large] [--many N]

MAXDETECT and MAXWIDE are the built programs; the package's loops in C are compiled first, where a compiler is, and
Python keeps the package's bytecode, as where it is installed. The image is a star field of 4096 x 4096 floating-point
numbers with 42,000 stars, of which some 33,000 are found. The script of SEP reads it, estimates the background,
extracts with the same threshold and least area, measures isophotal and Kron fluxes with errors, a circle and
half-light radii, and writes a catalogue in FITS. Source Extractor has that threshold and area too, and measures these
fluxes, ellipses, half-light radii, windowed centres with errors, and sky coordinates. The least time of N runs counts
(3 if left out), by the clock and in processor seconds, of which a busy machine takes less note; the share is of the
first row's seconds by the clock. Memory is the most that all processes of a run held together, mapped files among it.
With --side the image has another side, with --pixels-a-star more or fewer stars (400 pixels for each, if it isn't
given), and with --large an image of SIDE x SIDE pixels (10,000 if no number follows) goes through `maxcat` as well;
with --many N images of 512 x 512 pixels go through it in one call, and through Source Extractor in N. Run it with
nothing else running.
"""
import argparse
import contextlib
import os
import pathlib
import shutil
import subprocess
import sys
import tempfile
import time

import numpy
from astropy.io import fits

TOP = pathlib.Path(__file__).resolve().parent.parent
SEP = [
    "import sys, numpy, sep",
    "from astropy.io import fits",
    "from astropy.table import Table",
    "image = fits.getdata(sys.argv[1]).astype('f4')",
    "mask = ~numpy.isfinite(image)",
    "image[mask] = 0",
    "background = sep.Background(image, mask=mask)",
    "residual = image - background.back(dtype='f4')",
    "sep.set_extract_pixstack(10**7)",
    "noise = background.globalrms",
    "how = {'err': noise, 'mask': mask, 'filter_kernel': None, 'minarea': 5, 'segmentation_map': True}",
    "found, segments = sep.extract(residual, 2.25, **how)",
    "table = Table(found)",
    "x, y, a = (found[name] for name in ('x', 'y', 'a'))",
    "shape = (x, y, a, numpy.minimum(found['b'], a), numpy.clip(found['theta'], -1.57, 1.57))",
    "alone = {'segmap': segments, 'seg_id': numpy.arange(1, len(found) + 1, dtype='i4'), 'mask': mask}",
    "radius, _ = sep.kron_radius(residual, *shape, 6.0, **alone)",
    "reach = numpy.clip(2.5 * numpy.nan_to_num(radius), 3.5, 15)",
    "more = {'err': noise, 'gain': 1.0, **alone}",
    "kron = sep.sum_ellipse(residual, *shape, reach, subpix=1, **more)",
    "circle = sep.sum_circle(residual, x, y, 5.0, subpix=5, **more)",
    "half, _ = sep.flux_radius(residual, x, y, reach * a, 0.5, normflux=kron[0], subpix=3, **alone)",
    "table['flux_kron'], table['fluxerr_kron'], table['flag_kron'] = kron",
    "table['flux_aper'], table['fluxerr_aper'], table['flag_aper'] = circle",
    "table['half'] = half",
    "table.write(sys.argv[2], overwrite=True)",
]


EXTRACTED = [
    *("NUMBER", "X_IMAGE", "Y_IMAGE", "FLUX_ISO", "FLUXERR_ISO", "FLUX_AUTO", "FLUXERR_AUTO", "FLUX_APER"),
    *("FLUXERR_APER", "A_IMAGE", "B_IMAGE", "THETA_IMAGE", "KRON_RADIUS", "FLUX_RADIUS", "FWHM_IMAGE", "FLAGS"),
    *("XWIN_IMAGE", "YWIN_IMAGE", "ERRAWIN_IMAGE", "ERRBWIN_IMAGE", "ERRTHETAWIN_IMAGE", "SNR_WIN", "FLUX_MAX"),
    *("XPEAK_IMAGE", "YPEAK_IMAGE", "BACKGROUND", "ALPHA_J2000", "DELTA_J2000"),
]


def extractor(folder):
    """The words that call Source Extractor on an image, which follows; None where it isn't installed."""
    program = shutil.which("source-extractor") or shutil.which("sex")
    if program is None:
        return None
    (folder / "columns").write_text("\n".join(EXTRACTED))
    (folder / "settings").write_text("")
    settings = {"PARAMETERS_NAME": folder / "columns", "CATALOG_NAME": folder / "catalogue.fits", "FILTER": "N"}
    settings.update(CATALOG_TYPE="FITS_1.0", DETECT_MINAREA=5, DETECT_THRESH=2.25, ANALYSIS_THRESH=2.25, GAIN=1.0)
    settings.update(PHOT_APERTURES=10, VERBOSE_TYPE="QUIET")
    words = [program, "-c", folder / "settings"]
    return [*words, *(word for name, value in settings.items() for word in (f"-{name}", str(value)))]


def stars(image, rng, count):
    """Adds Gaussian stars of many sizes whose brightness follows a steep power law."""
    height, width = image.shape
    reach = 12
    rows, columns = numpy.mgrid[-reach : reach + 1, -reach : reach + 1]
    x, y = rng.uniform(reach, width - reach - 1, count), rng.uniform(reach, height - reach - 1, count)
    peaks, sigmas = numpy.minimum(50000, 40 / rng.random(count) ** 0.8), rng.uniform(1.0, 2.2, count)
    for column, row, peak, sigma in zip(x, y, peaks, sigmas):
        left, top = int(column), int(row)
        distance = (columns - (column - left)) ** 2 + (rows - (row - top)) ** 2
        part = image[top - reach : top + reach + 1, left - reach : left + reach + 1]
        part += peak * numpy.exp(-distance / (2 * sigma**2))


def field(path, side, pixels=400):
    """A field with a star for so many pixels, NaN at one in 5,000 and a WCS, written in bands of 1,024 rows."""
    rng = numpy.random.default_rng(1)
    header = fits.Header(
        {"CTYPE1": "RA---TAN", "CTYPE2": "DEC--TAN", "CRVAL1": 150.0, "CRVAL2": 2.0, "BUNIT": "adu", "GAIN": 1.0}
    )
    for axis, step in ((1, -1e-4), (2, 1e-4)):
        header[f"CRPIX{axis}"], header[f"CDELT{axis}"] = side / 2, step
    image = numpy.lib.format.open_memmap(f"{path}.npy", mode="w+", dtype="f4", shape=(side, side))
    for top in range(0, side, 1024):
        band = rng.normal(1032, 13, (min(1024, side - top), side)).astype("f4")
        stars(band, rng, band.size // pixels)
        band.ravel()[rng.integers(0, band.size, band.size // 5000)] = numpy.nan
        image[top : top + 1024] = band
    fits.PrimaryHDU(image, header).writeto(path)
    os.unlink(f"{path}.npy")


def descendants(process):
    """The numbers of a process and of all that it started and that are still there."""
    yield process
    for listed in pathlib.Path(f"/proc/{process}/task").glob("*/children"):
        for child in listed.read_text().split():
            yield from descendants(int(child))


def held(process):
    """The megabytes that a process and all that it started hold together; what they share counts once."""
    kilobytes = 0
    for number in descendants(process):
        with contextlib.suppress(OSError):
            for line in pathlib.Path(f"/proc/{number}/smaps_rollup").read_text().splitlines():
                if line.startswith("Pss:"):
                    kilobytes += int(line.split()[1])
    return kilobytes / 1024


def run(command, environment):
    """Seconds by the clock, processor seconds, and the most megabytes that were held at one of the looks, twenty a
    second.
    """
    start, peak, ended = time.perf_counter(), 0.0, 0
    with tempfile.TemporaryFile() as said:
        process = subprocess.Popen(command, stdout=subprocess.DEVNULL, stderr=said, env=environment)
        while not ended:
            with contextlib.suppress(OSError):
                peak = max(peak, held(process.pid))
            time.sleep(0.05)
            ended, status, used = os.wait4(process.pid, os.WNOHANG)
        seconds = time.perf_counter() - start
        process.returncode = os.waitstatus_to_exitcode(status)
        if process.returncode != 0:
            said.seek(0)
            sys.exit(f"{command} ended with {process.returncode}: {said.read().decode()}")
    return seconds, used.ru_utime + used.ru_stime, peak


def best(commands, count, environment):
    """The least times of some runs of all these commands, one after the other, and the greatest memory."""
    results = []
    for _ in range(count):
        seconds, used, peaks = zip(*(run(command, environment) for command in commands))
        results.append((sum(seconds), sum(used), max(peaks)))
    seconds, used, peaks = zip(*results)
    return min(seconds), min(used), max(peaks)


class Printed:
    """The rows of the table, each printed when its runs are done."""

    def __init__(self, folder, runs, environment):
        self.catalogue, self.runs, self.environment, self.first = folder / "catalogue.fits", runs, environment, None
        print("| Image | Program | Seconds | Share | Processor seconds | Peak MB | Sources |")
        print("|---|---|---|---|---|---|---|")

    def add(self, label, program, commands, runs=None, counted=True):
        """A row of commands that follow each other, with the number of sources in the catalogue that they leave."""
        seconds, used, peak = best(commands, runs or self.runs, self.environment)
        self.first = self.first or seconds
        with_rows = fits.getheader(self.catalogue, 1)["NAXIS2"] if counted else ""
        share = f"{seconds / self.first:.2f}"
        print(f"| {label} | {program} | {seconds:.2f} | {share} | {used:.2f} | {peak:.0f} | {with_rows} |", flush=True)


def one_image(rows, folder, given, maxcat):
    """The rows of one image."""
    image, label = folder / "image.fits", f"{given.side} x {given.side}"
    field(image, given.side, given.pixels_a_star)
    rows.first = None
    if extractor(folder):
        rows.add(label, "Source Extractor", [[*extractor(folder), image]])
    rows.add(label, "SEP, one script", [[sys.executable, "-c", "\n".join(SEP), image, rows.catalogue]])
    for workers in sorted({1, given.workers}):
        more = f"{workers} worker" + ("s" if workers > 1 else "")
        rows.add(label, f"`maxcat`, {more}", [[*maxcat, image, "-o", rows.catalogue, "--workers", str(workers)]])
    image.unlink()


def many_images(rows, folder, given, maxcat):
    """The rows of many small images."""
    images, label = [folder / f"{number}.fits" for number in range(given.many)], f"{given.many} of 512 x 512"
    field(images[0], 512)
    for image in images[1:]:
        shutil.copy(images[0], image)
    rows.first = None
    if extractor(folder):
        calls = [[*extractor(folder), image] for image in images]
        rows.add(label, f"Source Extractor, {len(calls)} calls", calls, counted=False)
    rows.add(
        label,
        f"`maxcat`, {given.workers} workers",
        [[*maxcat, *images, "--workers", str(given.workers)]],
        counted=False,
    )


def main():
    parser = argparse.ArgumentParser(description=__doc__.splitlines()[0])
    parser.add_argument("maxdetect", type=pathlib.Path)
    parser.add_argument("maxwide", type=pathlib.Path)
    parser.add_argument("--runs", type=int, default=3)
    parser.add_argument("--workers", type=int, default=4)
    parser.add_argument("--large", type=int, nargs="?", const=10000)
    parser.add_argument("--only-large", action="store_true")
    parser.add_argument("--side", type=int, default=4096)
    parser.add_argument("--pixels-a-star", type=int, default=400)
    parser.add_argument("--many", type=int)
    given = parser.parse_args()
    subprocess.run([TOP / "scripts" / "loops"], check=False)
    programs = {"MAXDETECT": os.fspath(given.maxdetect.resolve()), "MAXWIDE": os.fspath(given.maxwide.resolve())}
    maxcat = [sys.executable, "-m", "maxdetect._cli"]
    with tempfile.TemporaryDirectory() as name:
        folder = pathlib.Path(name)
        environment = {**os.environ, **programs, "PYTHONPATH": os.fspath(TOP / "python")}
        environment.pop("PYTHONDONTWRITEBYTECODE", None)
        rows = Printed(folder, given.runs, environment)
        if not given.only_large:
            one_image(rows, folder, given, maxcat)
        if given.many:
            many_images(rows, folder, given, maxcat)
        if given.large or given.only_large:
            side, image = given.large or 10000, folder / "large.fits"
            field(image, side)
            words = [*maxcat, image, "-o", rows.catalogue, "--workers", str(given.workers)]
            rows.first = None
            rows.add(f"{side} x {side}", f"`maxcat`, {given.workers} workers", [words], 1)
    print(f"The load behind the runs was {os.getloadavg()[0]:.1f}.")


if __name__ == "__main__":
    main()
