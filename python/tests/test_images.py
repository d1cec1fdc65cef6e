"""Images of every kind, read by windows."""
import gzip
import pickle

import numpy
import pytest
from astropy.io import fits

import maxdetect
from maxdetect import _images as images

ROWS, COLUMNS = slice(3, 11), slice(2, 7)
WHOLE = numpy.arange(12 * 9).reshape(12, 9)


def kinds():
    """HDUs of many kinds, and what they hold."""
    floats = WHOLE / 7
    floats[4, 4] = numpy.nan
    yield "float32", fits.PrimaryHDU(floats.astype("f4")), floats.astype("f4")
    yield "float64", fits.PrimaryHDU(floats), floats
    for kind in ("u1", "i2", "i4", "i8", "u2", "u4"):
        yield kind, fits.PrimaryHDU(WHOLE.astype(kind)), WHOLE
    scaled = fits.PrimaryHDU(floats.astype("f4"))
    scaled.data[4, 4] = 5
    scaled.scale("int16", bscale=0.01, bzero=7)
    yield "scaled", scaled, numpy.where(numpy.isnan(floats), 5, floats)
    blank = WHOLE.astype("f8")
    blank[2, 3] = numpy.nan
    yield "blank", fits.PrimaryHDU(WHOLE.astype("i2"), fits.Header({"BLANK": int(WHOLE[2, 3])})), blank
    yield "compressed", fits.CompImageHDU(floats.astype("f4"), compression_type="GZIP_1", quantize_level=0), floats
    yield "rice", fits.CompImageHDU(WHOLE.astype("i2"), compression_type="RICE_1"), WHOLE


@pytest.mark.parametrize("name, hdu, wanted", list(kinds()), ids=[kind[0] for kind in kinds()])
@pytest.mark.parametrize("packed", [False, True])
def test_windows_of_every_kind(tmp_path, name, hdu, wanted, packed):
    path = tmp_path / "image.fits"
    first = [] if isinstance(hdu, fits.PrimaryHDU) else [fits.PrimaryHDU()]
    fits.HDUList([*first, hdu]).writeto(path, output_verify="ignore")
    if packed:
        path.with_suffix(".fits.gz").write_bytes(gzip.compress(path.read_bytes()))
        path = path.with_suffix(".fits.gz")
    plane = pickle.loads(pickle.dumps(images.opened(str(path))))
    assert plane.shape == wanted.shape
    found = plane.window(ROWS, COLUMNS)
    assert found.dtype in ("f4", "f8") and found.dtype.isnative
    assert numpy.allclose(found, wanted[ROWS, COLUMNS], atol=0.01 if name == "scaled" else 1e-6, equal_nan=True)
    assert numpy.allclose(plane.window(slice(None)), wanted, atol=0.01 if name == "scaled" else 1e-6, equal_nan=True)


@pytest.fixture
def several(tmp_path):
    """A file with an empty primary, a table, a cube and two CCDs of which one is compressed."""
    table = fits.BinTableHDU.from_columns([fits.Column("A", "J", array=[1])])
    cube = fits.ImageHDU(numpy.stack([WHOLE, WHOLE + 1000]).astype("f4"), name="CUBE")
    ccds = [fits.ImageHDU(WHOLE.astype("i2"), name="CCD1"), fits.CompImageHDU(WHOLE.astype("f4"), name="CCD2")]
    path = tmp_path / "several.fits"
    fits.HDUList([fits.PrimaryHDU(), table, cube, *ccds]).writeto(path)
    return str(path)


def test_hdus_and_planes(several):
    assert images.opened(several, "ccd1").number == images.opened(several, "3").number == 3
    assert images.opened(several, 4).name == "CCD2"
    assert images.opened(several, 2, 2).window(ROWS, COLUMNS)[0, 0] == WHOLE[3, 2] + 1000
    for which, plane, text in [(2, None, "2 planes"), (None, 3, "no plane 3"), (9, None, "no HDU 9, but 5")]:
        with pytest.raises(maxdetect.Mistake, match=text):
            images.opened(several, which, plane)
    for which, text in [("NONE", "no HDU NONE"), ("-1", "no HDU -1"), (0, "no image of two"), (1, "no image of two")]:
        with pytest.raises(maxdetect.Mistake, match=text):
            images.opened(several, which)
    assert [it.number for it in images.all_opened(several, 1)] == [2, 3, 4]


def test_names_with_an_hdu(several, tmp_path):
    assert images.split_name("a.fits:2") == ("a.fits", "2") and images.split_name("a.fits") == ("a.fits", None)
    like = images.opened(several, "CCD1")
    assert images.matching(several + ":CCD2", like).number == 4
    fits.writeto(tmp_path / "odd:1", WHOLE.astype("i2")[1:])
    assert images.split_name(str(tmp_path / "odd:1"))[1] is None
    with pytest.raises(maxdetect.Mistake, match="differ in width or height"):
        images.matching(str(tmp_path / "odd:1"), like)


def mosaic(path, *names, first=0, version=()):
    """A file with an image for each name, the first pixel of which is its number and `first`."""
    hdus = [fits.PrimaryHDU()]
    for number, name in enumerate(names, 1):
        hdus.append(fits.ImageHDU(WHOLE.astype("i2"), name=name or None))
        hdus[-1].data[0, 0] = first + number
        if version:
            hdus[-1].header["EXTVER"] = version[number - 1]
    fits.HDUList(hdus).writeto(path)
    return str(path)


def test_the_image_of_another_file_that_belongs_to_one(tmp_path):
    image = mosaic(tmp_path / "image.fits", "CCD1", "CCD2", "CCD3")
    second = images.opened(image, "CCD2")

    def belonging(name, *names, to=second, **more):
        return images.matching(mosaic(tmp_path / name, *names, first=10, **more), to).window(slice(None))[0, 0]

    assert belonging("alone.fits", "WHT") == 11
    assert belonging("turned.fits", "CCD3", "ccd2 ", "CCD1") == 12
    assert belonging("numbered.fits", "W1", "W2", "W3") == 12
    assert belonging("nameless.fits", None, None) == 12
    for name, names in [("gap.fits", ("CCD1", "CCD3")), ("few.fits", ("CCD1", "W2", "CCD3"))]:
        with pytest.raises(maxdetect.Mistake, match=f"{name}: which of its . images belongs to .*CCD2"):
            belonging(name, *names)
    with pytest.raises(maxdetect.Mistake, match="which of its 2 images"):
        belonging("short.fits", "A", "B", to=images.opened(image, 3))
    twice = mosaic(tmp_path / "twice.fits", "SCI", "SCI", "SCI", version=(3, 1, 2))
    assert belonging("versions.fits", "SCI", "SCI", "SCI", version=(1, 2, 3), to=images.opened(twice, 3)) == 12
    alike = mosaic(tmp_path / "alike.fits", "SCI", "SCI")
    assert belonging("both.fits", "SCI", "SCI", to=images.opened(alike, 2)) == 12
    with pytest.raises(maxdetect.Mistake, match="which of its 3 images"):
        images.matching(image, second)
    assert images.matching(image + ":CCD2", second).number == 2


def test_files_that_can_not_be_read(tmp_path):
    (tmp_path / "text.fits").write_text("no image at all\n")
    (tmp_path / "empty.fits").write_bytes(b"")
    fits.writeto(tmp_path / "whole.fits", numpy.zeros((90, 90)))
    (tmp_path / "cut.fits").write_bytes((tmp_path / "whole.fits").read_bytes()[:9000])
    fits.BinTableHDU.from_columns([fits.Column("A", "J", array=[1])]).writeto(tmp_path / "table.fits")
    for name in ("text", "empty", "cut", "table", "none"):
        with pytest.raises(maxdetect.Mistake) as told:
            images.opened(str(tmp_path / f"{name}.fits"))
        assert "\n" not in str(told.value) and f"{name}.fits" in str(told.value)


def test_saved_images_are_small(tmp_path):
    path = str(tmp_path / "out.fits")
    masked = numpy.ma.MaskedArray(WHOLE, mask=WHOLE == 7)
    for image, bitpix in [
        (masked, 32),
        (WHOLE.astype("i8") << 40, 64),
        (WHOLE / 3, -32),
        (numpy.ma.MaskedArray(WHOLE / 3, mask=WHOLE == 7), -32),
    ]:
        maxdetect.save(image, path, fits.Header({"OBJECT": "M31", "BSCALE": 3.0, "NAXIS3": 4}))
        header, found = fits.getheader(path), images.opened(path).window(slice(None))
        assert header["BITPIX"] == bitpix and header["OBJECT"] == "M31" and "BSCALE" not in header
        assert numpy.allclose(found, numpy.ma.filled(image.astype("f8"), numpy.nan), rtol=1e-6, equal_nan=True)
    with pytest.raises(ValueError, match="64 bits"):
        maxdetect.save(numpy.array([[2**63]], dtype="u8"), path)
    assert fits.getheader(path)["BITPIX"] == -32
