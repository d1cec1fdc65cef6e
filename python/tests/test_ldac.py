"""FITS_LDAC, the columns that are asked for, and several apertures."""
import shutil
import subprocess

import numpy
import pytest
from astropy.io import fits
from astropy.table import Table

from maxdetect import _cli as cli, _ldac as ldac, photometry


@pytest.fixture
def mosaic(tmp_path, monkeypatch, stars):
    """A file of two CCDs with a WCS."""
    monkeypatch.chdir(tmp_path)
    cards = {
        "CTYPE1": "RA---TAN",
        "CTYPE2": "DEC--TAN",
        "CRVAL1": 150.0,
        "CRVAL2": 2.0,
        "CRPIX1": 128.0,
        "CRPIX2": 128.0,
    }
    cards.update({"CDELT1": -1 / 3600, "CDELT2": 1 / 3600, "GAIN": 1.0})
    primary = fits.PrimaryHDU(header=fits.Header({"FILTER": "r", "SATURATE": 5000.0, "OBJECT": "field"}))
    ccds = [fits.ImageHDU(image, fits.Header(cards), name=name) for image, name in ((stars[0], "A"), (stars[0].T, "B"))]
    fits.HDUList([primary, *ccds]).writeto("mosaic.fits")


def run(*words):
    assert cli.main(["mosaic.fits", *words]) == 0


def refused(capsys, *words):
    capsys.readouterr()
    assert cli.main(["mosaic.fits", *words]) == 2
    out, err = capsys.readouterr()
    assert out == "" and "Traceback" not in err
    return err.splitlines()[-1]


def test_a_header_and_a_table_for_each_ccd(mosaic):
    run("--hdu", "all", "-o", "cat.ldac", "--vignet", "9", "--apertures", "5,8", "--zeropoint", "25")
    run("--hdu", "all", "-o", "cat.fits", "--apertures", "5,8", "--zeropoint", "25")
    own = Table.read("cat.fits", hdu="SOURCES")
    with fits.open("cat.ldac") as hdus:
        assert [hdu.name for hdu in hdus[1:]] == ["LDAC_IMHEAD", "LDAC_OBJECTS"] * 2
        for head, objects, name in ((*hdus[1:3], "A"), (*hdus[3:], "B")):
            cards = fits.Header.fromstring("".join(line.ljust(80) for line in head.data[0][0]))
            assert (cards["EXTNAME"], cards["FILTER"], cards["CRVAL1"], cards["NAXIS1"]) == (name, "r", 150.0, 256)
            assert (cards["SEXGAIN"], cards["SEXSATLV"]) == (1.0, 5000.0) and cards["SEXBKDEV"] == pytest.approx(
                30, rel=0.1
            )
            rows, found = own[own["EXTENSION"] == name], objects.data
            assert (found["FLAGS"] == rows["FLAGS"]).all() and (found["FLAGS"] & photometry.SATURATED).any()
            for theirs, ours, times in (("X_IMAGE", "X", 1), ("XWIN_IMAGE", "XWIN", 1), ("A_IMAGE", "A", 0.5)):
                assert found[theirs] == pytest.approx(numpy.asarray(rows[ours] * times), rel=1e-6)
            assert found["ALPHA_J2000"] == pytest.approx(numpy.asarray(rows["RA"]))
            assert found["FLUX_APER"].shape == (len(rows), 2) and found["VIGNET"].shape == (len(rows), 9, 9)
            turned = numpy.hypot(found["ERRX2WIN_IMAGE"] + found["ERRY2WIN_IMAGE"], 0)
            assert turned == pytest.approx(numpy.asarray(rows["ERRAWIN"] ** 2 + rows["ERRBWIN"] ** 2), rel=1e-5)
    with fits.open("cat.ldac") as hdus:
        places = [(hdu.fileinfo()["datLoc"], hdu.header["NAXIS1"]) for hdu in (hdus[1], hdus[3])]
    raw = open("cat.ldac", "rb").read()
    assert all(b"\0" not in raw[at : at + size] and size % 2880 == 0 for at, size in places)


@pytest.mark.skipif(not shutil.which("psfex"), reason="PSFEx isn't there")
def test_psfex_takes_it(mosaic):
    run("--hdu", "all", "-o", "cat.ldac", "--vignet", "25", "--saturation", "1e6")
    words = (
        "-CHECKPLOT_TYPE NONE -CHECKIMAGE_TYPE NONE -WRITE_XML N -SAMPLE_MINSN 5 -NTHREADS 1 -PSF_SIZE 15,15".split()
    )
    done = subprocess.run(["psfex", "cat.ldac", *words], capture_output=True, timeout=120, check=False)
    assert done.returncode == 0
    with fits.open("cat.psf") as hdus:
        assert len(hdus) == 3 and all(hdu.header["ACCEPTED"] > 5 for hdu in hdus[1:])


def test_columns_that_are_asked_for(mosaic, capsys):
    with open("wanted.param", "w", encoding="ascii") as file:
        file.write("# what PSFEx wants\nX_IMAGE\nYWIN_IMAGE   windowed\nFLUX_APER(2) # two\nVIGNET(9,9)\n")
    run("--hdu", "A", "-o", "cat.ldac", "--columns", "wanted.param", "--apertures", "5,8")
    assert fits.open("cat.ldac")[2].columns.names == ["X_IMAGE", "YWIN_IMAGE", "FLUX_APER", "VIGNET"]
    run("--hdu", "A", "-o", "cat.csv", "--columns", "NUMBER, XWIN_IMAGE,FLUX_APER", "--apertures", "5,8")
    assert open("cat.csv").readline() == "NUMBER,XWIN_IMAGE,FLUX_APER_1,FLUX_APER_2\n"
    assert refused(capsys, "--columns", "X,CLASS_STAR") == "maxcat: --columns: maxcat has no CLASS_STAR"
    assert "wants its side" in refused(capsys, "--columns", "VIGNET")
    assert "--zeropoint" in refused(capsys, "--hdu", "A", "-o", "none.fits", "--columns", "MAG_AUTO")
    assert "in FITS_LDAC" in refused(capsys, "--hdu", "A", "-o", "none.ldac", "--columns", "XFIRST")
    assert "odd" in refused(capsys, "--vignet", "8") and "numbers above 0" in refused(capsys, "--apertures", "5,0")


def test_one_aperture_and_several(mosaic):
    run("--hdu", "A", "-o", "one.fits", "--zeropoint", "25")
    run("--hdu", "A", "-o", "several.fits", "--apertures", "4,10", "--zeropoint", "25")
    one, several = (Table.read(name, hdu="SOURCES") for name in ("one.fits", "several.fits"))
    assert one["FLUX_APER"].ndim == 1 and (one["FLUX_APER"] == several["FLUX_APER"][:, 1]).all()
    assert (
        several["MAGERR_APER"].shape == (len(one), 2) and (several["FLUX_APER"][:, 0] < one["FLUX_APER"]).mean() > 0.9
    )
    for form in ("ecsv", "votable"):
        run("--hdu", "A", "-o", "cat.any", "--format", form, "--apertures", "4,10", "--vignet", "5")
        read = Table.read("cat.any", format="ascii.ecsv" if form == "ecsv" else form)
        assert read["VIGNET"].shape == (len(one), 5, 5) and read["FLUX_APER"].shape == (len(one), 2)


def test_kron_ellipses_of_other_sizes(mosaic, capsys):
    run("--hdu", "A", "-o", "usual.fits")
    run("--hdu", "A", "-o", "small.fits", "--kron", "1,1.5")
    usual, small = (Table.read(name, hdu="SOURCES") for name in ("usual.fits", "small.fits"))
    assert (small["KRON_RADIUS"] < usual["KRON_RADIUS"]).all()
    assert (small["FLUX_AUTO"] < usual["FLUX_AUTO"]).mean() > 0.9 and (small["FLUX_ISO"] == usual["FLUX_ISO"]).all()
    assert "two numbers" in refused(capsys, "--kron", "2.5") and "up to 20" in refused(capsys, "--kron", "2.5,0")


def test_what_is_made_of_the_packages_columns():
    table = Table({"A": [4.0], "B": [2.0], "THETA": [90.0], "KRON_RADIUS": [7.0]})
    assert ldac.column("X2_IMAGE", table)[0] == pytest.approx(1) and ldac.column("Y2_IMAGE", table)[0] == pytest.approx(
        4
    )
    assert ldac.column("KRON_RADIUS", table)[0] == 3.5 and ldac.column("ALPHA_J2000", table) is None
