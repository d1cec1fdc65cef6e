"""The command `maxcat`, from files to files."""
import errno
import multiprocessing
import os
import signal
import subprocess
import sys
import time

import numpy
import pytest
from astropy.io import fits
from astropy.table import Table
from astropy.wcs import WCS

from conftest import TOP, cut_into_tiles
from maxdetect import _cli as cli, photometry, _regions as regions, _running as running, _tables as tables
from maxdetect._columns import CATALOGUE


def header(**cards):
    """A header with a WCS, a second of arc to a pixel."""
    wcs = WCS(naxis=2)
    wcs.wcs.ctype, wcs.wcs.crval, wcs.wcs.crpix = ["RA---TAN", "DEC--TAN"], [150.0, 2.0], [128.5, 128.5]
    wcs.wcs.cdelt = [-1 / 3600, 1 / 3600]
    return fits.Header({**wcs.to_header(), "BUNIT": "electron", "GAIN": 1.0, **cards})


@pytest.fixture
def here(tmp_path, monkeypatch, stars):
    """A folder with the star field as image.fits."""
    monkeypatch.chdir(tmp_path)
    fits.writeto("image.fits", stars[0], header())
    return tmp_path


def catalogue(*words):
    assert cli.main([str(word) for word in words]) == 0
    return Table.read(words[words.index("-o") + 1])


def told(capsys, *words):
    """The one line that a mistake is told in."""
    before = sorted(os.listdir("."))
    assert cli.main([str(word) for word in words]) == 2
    out, err = capsys.readouterr()
    assert (out, err.count("\n")) == ("", 1) and err.startswith("maxcat: ") and err.endswith("\n"), err
    assert sorted(os.listdir(".")) == before
    return err


def nearest(table, places):
    """The rows of the sources at these places, counted from 0, and how far off they are."""
    apart = numpy.hypot(
        *(numpy.asarray(table[name])[None] - 1 - places[:, axis, None] for axis, name in enumerate("XY"))
    )
    return table[apart.argmin(axis=1)], apart.min(axis=1)


def test_a_star_field(here, stars, capsys):
    table = catalogue("image.fits", "-o", "cat.fits", "--map", "map.fits", "--regions", "all.reg", "--zeropoint", 30)
    assert capsys.readouterr().out == f"{len(table)} sources in cat.fits\n"
    _, places, fluxes = stars
    own, apart = nearest(table, places)
    assert 25 <= len(table) <= 27 and apart.max() < 0.3
    assert numpy.asarray(own["FLUX_TOTAL"]) / fluxes == pytest.approx(1, abs=0.15)
    assert numpy.median(own["FLUX_TOTAL"] / fluxes) == pytest.approx(1, abs=0.02)
    for name in ("ISO", "AUTO", "TOTAL", "APER"):
        assert numpy.asarray(own[f"MAG_{name}"]) == pytest.approx(30 - 2.5 * numpy.log10(own[f"FLUX_{name}"]))
    right, declination = WCS(header()).all_pix2world(own["XWIN"], own["YWIN"], 1)
    assert numpy.asarray(own["RA"]) == pytest.approx(right) and numpy.asarray(own["DEC"]) == pytest.approx(declination)
    segments = fits.getdata("map.fits")
    assert segments.dtype == ">i4" and segments.shape == (256, 256) and WCS(fits.getheader("map.fits")).has_celestial
    assert (numpy.bincount(segments.ravel())[1:] == table["AREA"]).all()
    assert open("all.reg").read().count("ellipse(") == len(table)
    assert not [name for name in os.listdir(".") if name.endswith(".part")]


@pytest.mark.parametrize(
    "words",
    [
        *([], ["--no-smooth"], ["--fwhm", 5], ["--no-clean"], ["--contrast", 5], ["--split-sigmas", 0]),
        *(["--rms", "local"], ["--mesh", 0], ["--mesh", 30]),
    ],
)
def test_tiles_give_what_the_whole_gives(here, monkeypatch, words):
    whole = catalogue("image.fits", "-o", "whole.fits", "--map", "whole.map.fits", *words)
    cut_into_tiles(monkeypatch, 128)
    tiled = catalogue("image.fits", "-o", "tiled.fits", "--map", "tiled.map.fits", "--workers", 3, *words)
    assert len(whole) == len(tiled) > 20
    for name in CATALOGUE:
        assert (whole[name] == tiled[name]).all(), name
    assert (fits.getdata("whole.map.fits") == fits.getdata("tiled.map.fits")).all()


def test_forms_and_default_names(here):
    assert cli.main(["image.fits", "--workers", "2", "--mesh", "32", "image.fits"]) == 2
    for name in ("cat.csv", "cat.ecsv", "cat.xml"):
        assert cli.main(["image.fits", "-o", name]) == 0 and os.path.getsize(name) > 1000
    os.mkdir("deep")
    os.rename("image.fits", "deep/an image.fits.gz")
    os.link("deep/an image.fits.gz", "deep/b.fits")
    assert cli.main(["deep/b.fits", "deep/an image.fits.gz"]) in (0, 2)
    assert cli.main(["deep/b.fits"]) == 0 and os.path.exists("deep/b.cat.fits")


def test_undefined_pixels_and_a_mask(here, stars):
    image, places, _ = stars
    x, y = (int(at) for at in places[12])
    image = image.astype("f8")
    image[y - 9 : y + 10, x - 9 : x + 10] = numpy.nan
    fits.writeto("nan.fits", image)
    fits.writeto("mask.fits", (~numpy.isfinite(image)).astype("u1"))
    one = catalogue("nan.fits", "-o", "one.fits", "--gain", 1)
    assert nearest(one, places[12:13])[1] > 5 and nearest(one, numpy.delete(places, 12, 0))[1].max() < 0.3
    other = catalogue("image.fits", "-o", "other.fits", "--mask", "mask.fits")
    assert len(one) == len(other) and numpy.allclose(one["FLUX_AUTO"], other["FLUX_AUTO"], rtol=1e-4)


def test_several_ccds_at_once(here, stars):
    image = stars[0]
    ccds = [fits.CompImageHDU(image, header(), name="A", quantize_level=0, compression_type="GZIP_1")]
    ccds += [fits.ImageHDU(image[::-1].copy(), header(), name="B"), fits.ImageHDU(image[:200].astype("i2"), header())]
    fits.HDUList([fits.PrimaryHDU(), *ccds]).writeto("mosaic.fits")
    table = catalogue("mosaic.fits", "--hdu", "all", "-o", "cat.fits", "--map", "map.fits", "--workers", 2)
    assert [str(name) for name in dict.fromkeys(table["EXTENSION"])] == ["A", "B", "3"]
    with fits.open("map.fits") as maps:
        for number, name in enumerate(("A", "B", "3"), 1):
            rows = table[table["EXTENSION"] == name]
            assert len(rows) > 18 and maps[number].data.max() == rows["NUMBER"].max() and "RA" in rows.colnames
            assert (numpy.bincount(maps[number].data.ravel())[rows["NUMBER"]] == rows["AREA"]).all()
    alone = catalogue("mosaic.fits", "--hdu", "B", "-o", "b.fits")
    assert (alone["FLUX"] == table[table["EXTENSION"] == "B"]["FLUX"]).all()


@pytest.mark.parametrize("beside", ["weight", "mask", "measure"])
def test_what_belongs_to_a_ccd_that_is_named(here, stars, capsys, beside):
    other = {"weight": numpy.full((256, 256), 4.0), "mask": stars[0] > 1500, "measure": 3 * stars[0]}[beside]
    wrong = numpy.zeros((256, 256)) if beside == "mask" else stars[0][::-1]
    for name, pixels in (("image", [stars[0][::-1], stars[0]]), ("beside", [wrong, other])):
        hdus = [fits.ImageHDU(part.astype("f4"), name=f"CCD{number}") for number, part in enumerate(pixels, 1)]
        fits.HDUList([fits.PrimaryHDU(), *hdus]).writeto(f"{name}.fits", overwrite=True)
    words = ["image.fits", "--hdu", "CCD2", "-o", "cat.fits"]
    wanted = catalogue(*words, f"--{beside}", "beside.fits:CCD2")
    found = catalogue(*words, f"--{beside}", "beside.fits")
    assert len(found) == len(wanted) > 5 and (found["FLUX_ISO"] == wanted["FLUX_ISO"]).all()
    fits.delval("beside.fits", "EXTNAME", 2)
    capsys.readouterr()
    assert "which of its 2 images belongs to image.fits[CCD2]" in told(capsys, *words, f"--{beside}", "beside.fits")


def test_hdus_without_a_name_of_their_own(here, stars):
    part = stars[0][:100]
    hdus = [
        fits.CompImageHDU(part, quantize_level=0, compression_type="GZIP_1"),
        fits.ImageHDU(part, name="C"),
        fits.ImageHDU(part, name="C"),
    ]
    fits.HDUList([fits.PrimaryHDU(), *hdus, fits.ImageHDU(part, name="D")]).writeto("mosaic.fits")
    table = catalogue("mosaic.fits", "--hdu", "all", "-o", "cat.fits", "--map", "map.fits")
    assert [str(name) for name in dict.fromkeys(table["EXTENSION"])] == ["1", "2", "3", "D"]
    with fits.open("map.fits") as maps:
        assert [hdu.name for hdu in maps[1:]] == ["1", "2", "3", "D"]


def test_the_card_with_the_noise(here, stars):
    hdus = [fits.ImageHDU(scale * stars[0], header(GAIN=1 / scale), name=name) for scale, name in ((1, "A"), (2, "B"))]
    fits.HDUList([fits.PrimaryHDU(), *hdus]).writeto("mosaic.fits")
    fits.writeto("noise.fits", numpy.full((256, 256), 30, dtype="f4"))
    one, all_of_them, weighted = (
        catalogue(*words, "-o", "cat.fits").meta
        for words in (["image.fits"], ["mosaic.fits", "--hdu", "all"], ["image.fits", "--weight", "noise.fits"])
    )
    assert one["SIGMA"] == pytest.approx(30, rel=0.1) and not {"SIGMA"} & {*all_of_them, *weighted}
    assert (
        one["THRESH"] == all_of_them["THRESH"] == weighted["THRESH"] == 134
    )  # 4.4 deviations, and a little more for 30 electrons


def test_a_plane_of_a_cube(here, stars, capsys):
    fits.writeto("cube.fits", numpy.stack([stars[0][::-1], stars[0]]), header())
    assert "2 planes" in told(capsys, "cube.fits")
    one, other = catalogue("cube.fits", "--plane", 2, "-o", "a.fits"), catalogue("image.fits", "-o", "b.fits")
    assert (one["FLUX"] == other["FLUX"]).all() and numpy.allclose(one["RA"], other["RA"])
    both = catalogue("cube.fits", "--plane", 2, "--measure", "cube.fits", "-o", "c.fits")
    assert numpy.allclose(both["FLUX_APER"], one["FLUX_APER"], rtol=0.02, atol=60)


def test_noise_that_is_not_even(here, stars):
    rng, noise = numpy.random.default_rng(9), numpy.full((256, 256), 30.0)
    noise[:, 128:] = 90
    image = stars[0] + rng.normal(0, (noise**2 - 900) ** 0.5)
    fits.writeto("uneven.fits", image.astype("f4"))
    plain = catalogue("uneven.fits", "-o", "cat.fits")
    for kind, weights in {"rms": noise, "variance": noise**2, "weight": 5 / noise**2}.items():
        fits.writeto("noise.fits", weights.astype("f4"), overwrite=True)
        found = catalogue("uneven.fits", "-o", "cat.fits", "--weight", "noise.fits", "--weight-type", kind)
        right = [numpy.asarray(table["X"]) > 132 for table in (plain, found)]
        assert right[0].sum() > right[1].sum() and 8 <= right[1].sum() <= 14
        own, apart = nearest(found, stars[1][stars[1][:, 0] < 120])
        assert apart.max() < 0.3
        assert numpy.median(own["FLUXERR_ISO"] / numpy.sqrt(own["AREA"])) == pytest.approx(30, rel=0.1)
    local = catalogue("uneven.fits", "-o", "cat.fits", "--rms", "local", "--mesh", 32)
    assert (numpy.asarray(local["X"]) > 150).sum() < 16


def test_a_sky_that_slopes_to_the_edge(here):
    rng = numpy.random.default_rng(10)
    sky = numpy.repeat(900 * (1 + numpy.linspace(0, 0.5, 512)[None, :]), 256, axis=0)
    fits.writeto("slope.fits", rng.poisson(sky).astype("f4"))
    assert len(catalogue("slope.fits", "-o", "cat.fits")) <= 3


def test_measured_in_another_image(here, stars):
    fits.writeto("red.fits", 2 * stars[0])
    one, other = catalogue("image.fits", "-o", "a.fits"), catalogue(
        "image.fits", "-o", "b.fits", "--measure", "red.fits:0"
    )
    assert (one["FLUX"] == other["FLUX"]).all()
    assert numpy.allclose(other["FLUX_APER"], 2 * one["FLUX_APER"], rtol=0.02, atol=60)


def test_a_source_at_the_edge_stays_within(here, stars):
    fits.writeto("cut.fits", stars[0][:, int(stars[1][0, 0]) :])
    table = catalogue("cut.fits", "-o", "cat.fits", "--map", "map.fits")
    assert table["XMIN"].min() == 1 and (table["FLAGS"][table["XMIN"] == 1] & photometry.EDGE).all()
    assert (table["FLAGS"][table["XMIN"] > 3] & photometry.CUT == 0).all()


WRONG = [
    (["none.fits"], "none.fits"),
    (["image.fits", "-o", "cat.txt"], "cat.txt"),
    (["image.fits", "-o", "no/cat.fits"], "no/cat.fits"),
    (["image.fits", "-o", "image.fits"], "image.fits is read"),
    (["image.fits", "-o", "./cat.fits", "--map", "cat.fits"], "twice"),
    (["image.fits", "--map", "image.fits"], "image.fits is read"),
    (["image.fits", "--hdu", "3"], "no HDU 3"),
    (["image.fits", "--hdu", "SCI"], "no HDU SCI"),
    (["image.fits", "--plane", "2"], "no plane 2"),
    (["image.fits", "--mesh", "-1"], "--mesh"),
    (["image.fits", "--mesh", "x"], "--mesh: invalid whole number value: 'x'"),
    (["image.fits", "--sigmas", "-2"], "--sigmas"),
    (["image.fits", "--sigmas", "nan"], "--sigmas"),
    (["image.fits", "--sigmas", "1e300"], "--sigmas"),
    (["image.fits", "--fwhm", "60"], "--fwhm: 60 is neither 0 nor a number from 0.5 to 50"),
    (["image.fits", "--fwhm", "nan"], "--fwhm"),
    (["image.fits", "--fwhm", "wide"], "--fwhm: invalid number value: 'wide'"),
    (["image.fits", "--contrast", "1001"], "--contrast: 1001 isn't a whole number from 0 to 1000"),
    (["image.fits", "--split-sigmas", "-1"], "--split-sigmas: -1 isn't a number from 0 to 1e+06"),
    (["image.fits", "--split-sigmas", "nan"], "--split-sigmas"),
    (["image.fits", "--min-area", "0"], "--min-area"),
    (["image.fits", "--smooth"], "--smooth"),
    (["image.fits", "--mesh", "1"], "--mesh"),
    (["image.fits", "--mesh", "1024"], "--mesh"),
    (["image.fits", "--weight", ""], "--weight has an empty name"),
    (["image.fits", "-o", ""], "--output has an empty name"),
    (["huge.fits"], "scale the image"),
    (["tiny.fits"], "scale the image"),
    (["image.fits", "--mask", "ones.fits"], "ones.fits"),
    (["image.fits", "--zeropoint", "inf"], "--zeropoint: inf isn't a finite number"),
    (["image.fits", "--zeropoint", "x"], "--zeropoint: invalid number value: 'x'"),
    (["image.fits", "--gain", "0"], "--gain: 0 isn't a number above 0"),
    (["image.fits", "--workers", "0"], "--workers: 0 isn't a whole number from 1 to 64"),
    (["image.fits", "--what"], "--what"),
    ([], "IMAGE"),
    (["image.fits", "image.fits", "-o", "cat.fits"], "one image"),
    (["image.fits", "--weight", "small.fits"], "differ in width or height"),
    (["image.fits", "--mask", "none.fits:1"], "none.fits"),
    (["image.fits", "--measure", "image.fits:4"], "no HDU 4"),
    (["image.fits", "--weight-type", "rms"], "--weight"),
    (["image.fits", "--hdu", "all", "--plot", "a.png"], "--plot"),
    (["image.fits", "--plot", "a.jpg"], "a.jpg"),
    (["image.fits", "--hdu", "all", "--report", "a.html"], "--report"),
    (["image.fits", "--report", "a.png"], "a.png"),
    (["image.fits", "--crop", "1,9,1,9"], "--plot"),
    (["image.fits", "--plot", "a.png", "--crop", "1,9,5"], "--crop: 1,9,5 isn't XMIN,XMAX,YMIN,YMAX"),
    (["image.fits", "--plot", "a.png", "--crop", "a,9,5,8"], "--crop: invalid part value: 'a,9,5,8'"),
    (["image.fits", "--plot", "a.png", "--crop", "900,990,1,5"], "--crop"),
    (["flat.fits"], "no noise"),
    (["nothing.fits"], "no pixel"),
    (["text.fits"], "text.fits"),
    (["text.fits", "--plot", "a.png", "--crop", "1,9,1,9"], "text.fits"),
    (["image.fits", "--survey", "s.db", "--field", "a field"], "'a field' is no field's name"),
    (["image.fits", "--survey", "no/s.db", "--field", "A"], "no/s.db can't be written"),
    (["image.fits", "--survey", "s.db", "--hdu", "all"], "--survey is for one HDU of each image"),
    (["image.fits", "flat.fits", "--survey", "s.db", "--field", "A"], "--field is for one image, not 2"),
    (["image.fits", "other/image.fits", "--survey", "s.db"], "two images would be the survey's field image"),
    (["image.fits", "--survey", "s.db", "--resume"], "--resume and --survey exclude each other"),
    (["image.fits", "--field", "A"], "--field wants a --survey"),
    (["image.fits", "--survey-unit", "2"], "--survey-unit wants a --survey"),
    (["image.fits", "--weight", "ones.fits", "--rms", "local"], "--rms local and --weight exclude each other"),
    (["image.fits", "--measure-weight", "ones.fits"], "--measure-weight wants a --measure"),
    (["image.fits", "--measure-weight-type", "rms"], "wants a --measure-weight or a --band-weight"),
    (["image.fits", "--flag-map", ""], "--flag-map has an empty name"),
    (["image.fits", "--columns", ","], "--columns: , has no name"),
    (["image.fits", "--columns", "1X,NOTHING"], "--columns: maxcat has no 1X, NOTHING"),
    (["image.fits", "--columns", "X,VIGNET"], "VIGNET wants its side"),
    (["image.fits", "--columns", "X,MAG_AUTO"], "this image's sources have no MAG_AUTO (they want --zeropoint"),
    (["image.fits", "--columns", "X,IMAFLAGS"], "this image's sources have no IMAFLAGS (IMAFLAGS wants --flag-map"),
    (["image.fits", "--columns", "latin.txt"], "--columns: latin.txt can't be read as a list of names"),
]


@pytest.fixture(scope="module")
def files(tmp_path_factory, stars):
    """A folder with the star field and files of which something is wrong; no mistake changes it."""
    folder = tmp_path_factory.mktemp("files")
    (folder / "other").mkdir()
    images = {
        "image.fits": stars[0],
        "small.fits": numpy.zeros((9, 9), dtype="f4"),
        "flat.fits": numpy.zeros((90, 90), dtype="f4"),
        "nothing.fits": numpy.full((90, 90), numpy.nan, dtype="f4"),
        "ones.fits": numpy.ones((256, 256), dtype="u1"),
        "huge.fits": stars[0].astype("f8") * 1e200,
        "tiny.fits": stars[0] * 1e-36,
        "other/image.fits": numpy.ones((9, 9), dtype="f4"),
    }
    for name, image in images.items():
        fits.writeto(folder / name, image, header() if name == "image.fits" else None)
    (folder / "text.fits").write_text("text\n")
    (folder / "latin.txt").write_bytes(b"X\n\xe9\n")
    return folder


@pytest.mark.parametrize("words, text", WRONG, ids=[" ".join(words) or "nothing" for words, _ in WRONG])
def test_mistakes_are_one_line_and_leave_nothing(files, monkeypatch, capsys, words, text):
    monkeypatch.chdir(files)
    assert text in told(capsys, *words)


def test_the_program_of_windows_is_wanted_for_a_large_image(here, capsys, monkeypatch):
    monkeypatch.setenv("MAXWIDE", "/nowhere/maxwide")
    assert len(catalogue("image.fits", "-o", "cat.fits")) > 20
    capsys.readouterr()
    cut_into_tiles(monkeypatch, 100)
    err = told(capsys, "image.fits", "-o", "other.fits")
    assert "/nowhere/maxwide can't be run" in err


def test_a_program_that_fails_leaves_nothing(here, capsys, monkeypatch):
    (here / "killed").write_text("#!/bin/sh\nkill -9 $$\n")
    (here / "killed").chmod(0o755)
    monkeypatch.setenv("MAXDETECT", str(here / "killed"))
    assert "signal 9" in told(capsys, "image.fits", "--map", "map.fits", "--workers", "2")


def test_the_launcher(here):
    result = subprocess.run([TOP / "maxcat", "--version"], capture_output=True, text=True, check=True)
    assert result.stdout.startswith("maxcat ")
    environment = {**os.environ, "PYTHONPATH": str(TOP / "python")}
    for words, status in (["--help"], 0), (["none.fits"], 2):
        command = [sys.executable, "-m", "maxdetect._cli", *words]
        result = subprocess.run(command, capture_output=True, text=True, check=False, env=environment)
        assert result.returncode == status and "Traceback" not in result.stderr


def test_prepare(here, capsys):
    words = [sys.executable, TOP / "examples" / "prepare.py"]
    result = subprocess.run([*words, "image.fits", "pre pared.fits"], capture_output=True, text=True, check=True)
    assert result.stdout == (
        "maxdetect detect --threshold 68 --min-area 5 --connect 8 --mesh 64 < 'pre pared.fits' > sources.fits\n"
    )
    prepared = fits.getheader("pre pared.fits")
    assert (
        prepared["BITPIX"] == 32
        and "BUNIT" not in prepared
        and 30 / prepared["MAXSCALE"] == pytest.approx(30, rel=0.05)
    )
    result = subprocess.run([*words, "image.fits", "image.fits"], capture_output=True, text=True, check=False)
    assert result.returncode == 2 and result.stderr.startswith("prepare: ")


ALL = ["image.fits", "-o", "cat.fits", "--map", "map.fits", "--regions", "all.reg", "--plot", "all.png"]


def test_a_page(here, capsys):
    table = catalogue("image.fits", "-o", "cat.fits", "--report", "page.html", "--rms", "local")
    text = (here / "page.html").read_text()
    assert f'"sources": {len(table)},' in text and '"name": "background"' in text and '"name": "noise"' in text


def failing(number):
    """A function that ends with this fault of the system."""

    def fails(*given, **more):
        raise OSError(number, os.strerror(number))

    return fails


def test_a_full_disk(here, capsys, monkeypatch):
    monkeypatch.setattr(os, "posix_fallocate", failing(errno.ENOSPC))
    assert told(capsys, *ALL) == "maxcat: map.fits: No space left on device\n"
    monkeypatch.setattr(os, "posix_fallocate", failing(errno.EOPNOTSUPP))
    table = catalogue(*ALL)
    assert fits.getdata("map.fits").max() == len(table)


def test_a_plot_on_a_full_disk(here, capsys, monkeypatch):
    pytest.importorskip("matplotlib", reason="plots want Matplotlib (Debian: python3-matplotlib)")
    monkeypatch.setattr(os, "posix_fallocate", failing(errno.ENOSPC))
    assert "No space left on device" in told(capsys, "image.fits", "--plot", "all.png")


@pytest.mark.parametrize("module, name", [(tables, "cat.fits"), (regions, "all.reg")], ids=["tables", "regions"])
def test_all_files_or_none(here, capsys, monkeypatch, module, name):
    monkeypatch.setattr(module, "write", failing(errno.ENOSPC))
    assert told(capsys, *ALL) == f"maxcat: {name}: No space left on device\n"
    (here / "cat.fits").write_text("earlier")
    told(capsys, *ALL)
    assert (here / "cat.fits").read_text() == "earlier"


def test_what_is_no_file_takes_a_map(here, capsys):
    table = catalogue("image.fits", "-o", "cat.fits", "--map", "/dev/null")
    assert capsys.readouterr().out == f"{len(table)} sources in cat.fits\n" and not os.path.isfile("/dev/null")
    assert "none/map.fits can't be written" in told(capsys, "image.fits", "--map", "none/map.fits")


@pytest.mark.parametrize("workers", [1, 3])
def test_bad_images_among_good_ones(here, capsys, workers):
    fits.writeto("flat.fits", numpy.zeros((90, 90), dtype="f4"))
    os.link("image.fits", "last.fits")
    assert cli.main(["none.fits", "image.fits", "flat.fits", "last.fits", "--workers", str(workers)]) == 2
    out, err = capsys.readouterr()
    assert [line.split()[-1] for line in out.splitlines()] == ["image.cat.fits", "last.cat.fits"]
    assert [text in line for text, line in zip(("none.fits", "flat.fits"), err.splitlines())] == [True, True]
    assert err.count("\n") == 2 and sorted(os.listdir(".")) == [
        *("flat.fits", "image.cat.fits", "image.fits", "last.cat.fits", "last.fits")
    ]


@pytest.mark.parametrize("workers, images", [(1, 1), (2, 1), (2, 2)])
@pytest.mark.parametrize("number", [signal.SIGINT, signal.SIGTERM, signal.SIGHUP])
def test_a_signal_leaves_nothing(here, monkeypatch, number, workers, images):
    (here / "slow").write_text("#!/bin/sh\ntouch started\nexec sleep 60\n")
    (here / "slow").chmod(0o755)
    monkeypatch.setenv("MAXDETECT", str(here / "slow"))
    os.link("image.fits", "other.fits")
    words = ["image.fits", "other.fits"][:images] + ([] if images > 1 else ALL[1:]) + ["--workers", str(workers)]
    before = sorted(os.listdir("."))

    def run():
        # The tests may run where it is ignored, as by nohup.
        signal.signal(number, signal.SIG_DFL)
        sys.exit(cli.main(words))

    # What is tested begins behind the start of Python, so a process that has begun is forked.
    forked = multiprocessing.get_context("fork").Process(target=run)
    forked.start()
    while not os.path.exists("started"):
        assert forked.is_alive()
        time.sleep(0.02)
    assert [name for name in os.listdir(".") if ".part" in name]
    os.kill(forked.pid, number)
    forked.join(300)
    assert forked.exitcode == 128 + number
    assert sorted(os.listdir(".")) == sorted([*before, "started"])


@pytest.mark.parametrize("number", [signal.SIGINT, signal.SIGTERM, signal.SIGHUP])
def test_signals_are_as_before(monkeypatch, number):
    seen = []
    monkeypatch.setattr(running, "run", lambda given: seen.append(signal.getsignal(number)))
    earlier = signal.signal(number, signal.SIG_DFL)
    try:
        assert cli.main(["image.fits"]) == 0 and signal.getsignal(number) is signal.SIG_DFL is not seen[0]
        signal.signal(number, signal.SIG_IGN)
        assert cli.main(["image.fits"]) == 0 and seen[1] is signal.getsignal(number) is signal.SIG_IGN
    finally:
        signal.signal(number, earlier)
