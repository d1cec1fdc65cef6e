"""Settings of Source Extractor's, and options in files."""
import pytest
from astropy.io import fits
from astropy.table import Table

from maxdetect import _cli as cli, _likesex as likesex
from maxdetect._errors import Mistake

SETTINGS = """# a default.sex
CATALOG_NAME    wanted.ldac
CATALOG_TYPE    FITS_LDAC       # for SCAMP
PARAMETERS_NAME wanted.param
DETECT_THRESH   1.5
FILTER          N
PHOT_APERTURES  5, 10
PHOT_AUTOPARAMS 2.0, 3.0
MAG_ZEROPOINT   25.5
GAIN            0.0
SATUR_LEVEL     40000.0
BACK_SIZE       32
BACK_TYPE       MANUAL
DETECT_TYPE     CCD
WEIGHT_TYPE     NONE
CHECKIMAGE_TYPE SEGMENTATION, BACKGROUND, OBJECTS
CHECKIMAGE_NAME map.fits, background.fits, objects.fits
VERBOSE_TYPE    QUIET
"""


@pytest.fixture(autouse=True)
def here(tmp_path, monkeypatch, stars):
    monkeypatch.chdir(tmp_path)
    fits.writeto("image.fits", stars[0], fits.Header({"GAIN": 1.0}))
    (tmp_path / "default.sex").write_text(SETTINGS)
    (tmp_path / "wanted.param").write_text("NUMBER\nX_IMAGE\nFLUX_APER(2)\nCLASS_STAR\n")


def test_settings_as_words():
    found, untold = likesex.words("default.sex")
    wanted = "--output wanted.ldac --no-smooth --apertures 5,10 --kron 2.0,3.0 --zeropoint 25.5 --saturation 40000.0"
    assert found == [
        *f"{wanted} --mesh 32".split(),
        *"--map map.fits --check background --columns NUMBER,X_IMAGE,FLUX_APER(2) --format ldac".split(),
    ]
    assert [it.split(" (")[0] for it in untold] == [
        "DETECT_THRESH",
        "BACK_TYPE",
        "the check image OBJECTS",
        "CLASS_STAR",
    ]


def test_the_catalogue_that_the_settings_ask_for(capsys):
    assert cli.main(["image.fits", "--like-sextractor", "default.sex", "--zeropoint", "20"]) == 0
    out, err = capsys.readouterr()
    assert "sources in wanted.ldac" in out and err.startswith("maxcat: default.sex: not taken: DETECT_THRESH")
    with fits.open("wanted.ldac") as hdus:
        assert hdus[2].columns.names == ["NUMBER", "X_IMAGE", "FLUX_APER"] and hdus[2].data["FLUX_APER"].shape[1] == 2
        text = "".join(line.ljust(80) for line in hdus[1].data[0][0])
        assert fits.Header.fromstring(text)["SEXMGZPT"] == 20
    assert fits.getdata("map.fits").max() == len(fits.getdata("wanted.ldac", 2))
    assert fits.getdata("wanted.background.fits").shape == (256, 256)


def test_what_is_no_file_of_settings(capsys):
    for path, told in (("none.sex", "No such file"), ("wanted.param", "")):
        if told:
            with pytest.raises(Mistake, match=told):
                likesex.words(path)
    open("bad.sex", "w").write("SIMPLE = T\nlower case\n")
    assert cli.main(["image.fits", "--like-sextractor", "bad.sex"]) == 2
    assert capsys.readouterr().err.count("\n") == 1


def test_options_in_a_file(capsys):
    open("options", "w").write("# mine\n--zeropoint 25  # AB\n-o 'a cat.fits'\n")
    assert cli.main(["@options", "image.fits", "--no-smooth"]) == 0
    assert Table.read("a cat.fits", hdu="SOURCES").meta["ZEROPNT"] == 25
    open("options", "w").write("-o 'open\n")
    for words in (["@options", "image.fits"], ["@none", "image.fits"]):
        capsys.readouterr()
        assert cli.main(words) == 2 and capsys.readouterr().err.count("\n") == 1
