"""One image in each form that a file has for it: the same numbers, the same undefined pixels, the same sources."""
import numpy
import pytest
from astropy.io import fits
from astropy.table import Table

import forms
import maxdetect
from maxdetect import _cli as cli, _images as images

WHOLE = ("u1", "i2", "i4", "i8")
# Each of them stands for other values, and one of the stored numbers for none.
MEANINGS = {
    "as it is": lambda stored: {},
    "unsigned": lambda stored: {"BZERO": forms.unsigned_zero(stored)},
    "scaled": lambda stored: {"BSCALE": 0.25, "BZERO": 1000.5},
    "moved": lambda stored: {"BZERO": 3},
}


def numbers(kind, blank, shape=(20, 31)):
    """Stored numbers between 10 and 200, two of them another one."""
    found = forms.in_runs(numpy.random.default_rng(3).integers(10, 200, shape).astype(kind))
    found[..., 3, 4] = found[..., 11, 30] = blank
    return found


def blanks(kind, form):
    """Numbers that stand for none: those that programs take, and 0."""
    info = numpy.iinfo(kind)
    return (0, 255 if kind == "u1" or form == "PLIO_1" else int(info.min))


@pytest.mark.parametrize("means", MEANINGS)
@pytest.mark.parametrize("kind", WHOLE)
@pytest.mark.parametrize("form", forms.FORMS)
def test_whole_numbers(tmp_path, form, kind, means):
    for blank in blanks(kind, form):
        stored = numbers(kind, blank)
        if not forms.holds(form, stored):
            pytest.skip("the form has no room for it")
        cards = {"BLANK": blank, **MEANINGS[means](stored)}
        path, wanted = forms.written(tmp_path / "image.fits", stored, cards, form), forms.values(stored, cards)
        assert numpy.isnan(wanted).sum() == 2
        plane = images.opened(path)
        assert numpy.array_equal(plane.window(slice(None)), wanted, equal_nan=True)
        assert numpy.array_equal(plane.window(slice(2, 15), slice(3, 31)), wanted[2:15, 3:31], equal_nan=True)
        if means != "scaled":
            loaded = maxdetect.load(path, plane.number)
            assert loaded.dtype.kind in "iu" and numpy.array_equal(loaded.mask, numpy.isnan(wanted))
            assert (loaded.compressed() == wanted[~numpy.isnan(wanted)]).all()


@pytest.mark.parametrize("form", [form for form in forms.FORMS if form != "HCOMPRESS_1"])
def test_planes(tmp_path, form):
    stored = numbers("i2", 5, (3, 20, 31))
    cards = {"BLANK": 5, "BZERO": 32768}
    path, wanted = forms.written(tmp_path / "cube.fits", stored, cards, form), forms.values(stored, cards)
    for plane in (1, 3):
        assert numpy.array_equal(
            images.opened(path, None, plane).window(slice(None)), wanted[plane - 1], equal_nan=True
        )


@pytest.mark.parametrize("form", forms.FORMS)
def test_floats(tmp_path, form):
    for kind in ("f4", "f8"):
        stored = (numpy.arange(600.0).reshape(20, 30) / 7).astype(kind)
        stored[3, 4] = numpy.nan
        if form == "GZIP_2" and kind == "f8" or not forms.holds(form, stored):
            continue
        for cards in ({}, {"BSCALE": 0.5, "BZERO": 10.25}, {"BLANK": 7}):
            path = forms.written(tmp_path / "image.fits", stored, cards, form)
            assert numpy.array_equal(
                images.opened(path).window(slice(None)), forms.values(stored, cards), equal_nan=True
            )


def test_a_blank_of_the_compressed_table(tmp_path):
    stored = numbers("i4", 77)
    path = forms.written(tmp_path / "image.fits", stored, {"ZBLANK": 77, "BLANK": 8}, "RICE_1")
    assert numpy.array_equal(numpy.isnan(images.opened(path).window(slice(None))), stored == 77)


def plain(column):
    """A column as numbers, NaN where it has none."""
    return numpy.ma.asarray(column).astype("f8").filled(numpy.nan)


@pytest.fixture(
    scope="module",
    params=[("u8", 2**63 - 290), ("u8", 2**64 - 900), ("i8", -(2**63) + 5), ("i8", 2**62)],
    ids=lambda it: f"{it[0]}-{it[1]}",
)
def far(request, stars, tmp_path_factory):
    """Values from a number on and that number, the limit of saturation, and what is found in them as an array, and in a
    file of the values less that number.
    """
    (kind, low), folder = request.param, tmp_path_factory.mktemp("near")
    rough, limit = numpy.clip(stars[0][:110, :160] / 8, 0, 300).astype("i8"), float(low + 290)
    values = (rough.astype(object) + low).astype(kind)
    fits.writeto(folder / "near.fits", rough)
    words = [str(folder / "near.fits"), "-o", str(folder / "near.cat.fits"), f"--saturation={int(limit) - low}"]
    assert cli.main(words) == 0
    arrays = maxdetect.catalogue(values, saturation=limit)[0]
    return values, low, limit, arrays, Table.read(folder / "near.cat.fits")


@pytest.mark.parametrize("form", forms.PACKED)
def test_values_that_differ_by_one_far_out(tmp_path, monkeypatch, far, form):
    monkeypatch.chdir(tmp_path)
    values, low, limit, arrays, near = far
    zero = 2**63 if values.dtype.kind == "u" else 0
    stored = (values.astype(object) - zero).astype("i8")
    path = forms.written(tmp_path / "far.fits", stored, {"BZERO": zero}, form)
    assert (maxdetect.load(path) == values).all()
    plane = images.opened(path)
    assert numpy.array_equal(plane.window(slice(None)), values.astype("f8"))
    assert (plane.window(slice(None), less=low) == values - values.dtype.type(low)).all()
    assert cli.main([path, "-o", "far.cat.fits", f"--saturation={limit!r}"]) == 0
    table = Table.read("far.cat.fits")
    assert len(table) > 5
    for found in (table, arrays):
        for name in near.colnames:
            # What the program sees is rounded to whole numbers: of the same light, less another level, at times apart.
            loose = 1e-5 if near[name].dtype.kind == "f" else 2 if name in ("FLUX", "PEAK", "LEVEL", "BASE") else 0
            wanted = plain(near[name]) + (float(low) if name == "BACKGROUND" else 0)
            assert numpy.allclose(plain(found[name]), wanted, min(loose, 1e-5), loose, equal_nan=True), name


BLANKS = {"image": 32001, "mask": 32, "weight": 32001, "measure": 32001}


@pytest.fixture(scope="module")
def field(stars, tmp_path_factory):
    """The star field in 16 bits with two squares that are undefined, a mask, weights and a second image of it, and
    what is found with all four as files of floating-point numbers.
    """
    rng, folder = numpy.random.default_rng(4), tmp_path_factory.mktemp("field")
    stored = {"image": numpy.clip(stars[0] / 8, 0, 32000).astype("i2")}
    stored["mask"] = numpy.zeros((256, 256), dtype="u1")
    stored["mask"][40:60, 100:140] = 1
    stored["weight"] = rng.integers(90, 110, (256, 256)).astype("i2")
    stored["measure"] = numpy.clip(stars[0] / 5, 0, 32000).astype("i2")
    for number, name in enumerate(stored):
        stored[name][60 + 20 * number : 80 + 20 * number, 30:60] = BLANKS[name]
    words = []
    for name, numbers_of in stored.items():
        path = str(folder / f"{name}.float.fits")
        fits.writeto(path, forms.values(numbers_of, {"BLANK": BLANKS[name]}))
        words += [path] if name == "image" else [f"--{name}", path]
    assert cli.main([*words, "-o", str(folder / "float.cat.fits")]) == 0
    return folder, stored, Table.read(folder / "float.cat.fits")


@pytest.mark.parametrize("form", forms.FORMS)
def test_the_same_sources(field, form):
    folder, stored, wanted = field
    words = []
    for name, numbers_of in stored.items():
        cards = {"BLANK": BLANKS[name]}
        own = form if forms.holds(form, numbers_of) else "plain"
        path = forms.written(folder / f"{name}.{form}.fits", numbers_of, cards, own)
        words += [path] if name == "image" else [f"--{name}", path]
    assert cli.main([*words, "-o", str(folder / "cat.fits")]) == 0
    found = Table.read(folder / "cat.fits")
    assert len(found) == len(wanted) > 15
    for name in ("X", "Y", "AREA", "FLUX", "FLUX_ISO", "FLUXERR_ISO", "FLAGS"):
        assert numpy.allclose(found[name], wanted[name], rtol=1e-4, equal_nan=True), name
