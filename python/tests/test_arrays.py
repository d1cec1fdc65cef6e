"""The way of `maxcat` for arrays."""
import numpy
import pytest
from astropy.io import fits

pytest.importorskip("sep", reason="the package wants SEP (Debian: python3-sep)")

from maxdetect import photometry  # noqa: E402
from maxdetect._arrays import catalogue  # noqa: E402


def star_field():
    """Stars of 5,000 on noise of 5, on a grid of 40 pixels."""
    rng = numpy.random.default_rng(2)
    rows, columns = numpy.mgrid[:240, :280]
    image = rng.normal(100, 5, rows.shape)
    places = [(x, y) for y in range(20, 240, 40) for x in range(20, 280, 40)]
    for x, y in places:
        image += 5000 / (2 * numpy.pi * 4) * numpy.exp(-((columns - x) ** 2 + (rows - y) ** 2) / 8)
    return image, places


def test_catalogue_of_an_array():
    image, places = star_field()
    header = fits.Header({"CTYPE1": "RA---TAN", "CTYPE2": "DEC--TAN", "CRVAL1": 10.0, "CRVAL2": 20.0, "BUNIT": "adu"})
    header.update({"CRPIX1": 1.0, "CRPIX2": 1.0, "CDELT1": -1e-4, "CDELT2": 1e-4})
    table, segments = catalogue(image, header=header, zeropoint=25.0, gain=1.0)
    assert len(table) == len(places) and segments.max() == len(places)
    found = sorted((round(y) - 1, round(x) - 1) for x, y in table["X", "Y"])
    assert found == sorted((y, x) for x, y in places)
    assert numpy.median(table["FLUX_AUTO"]) == pytest.approx(5000, rel=0.02)
    assert {"RA", "DEC", "MAG_AUTO"} <= set(table.colnames) and str(table["FLUX_AUTO"].unit) == "adu"


def test_masks_and_nan_are_alike():
    image, _ = star_field()
    masked = numpy.ma.MaskedArray(image.copy(), mask=False)
    masked[50:60, :] = numpy.ma.masked
    one, first = catalogue(masked)
    two, second = catalogue(masked.filled(numpy.nan))
    assert (first == second).all() and all((one[name] == two[name]).all() for name in one.colnames)
    assert not first[50:60].any()


@pytest.mark.parametrize("mesh", [0, 64])
@pytest.mark.parametrize("form", ["f4", ">f4", "f8", "i4", "i8"])
def test_the_order_in_memory_changes_nothing(form, mesh):
    image = star_field()[0][:160, :200].astype(form)
    one, first = catalogue(image, mesh=mesh, gain=1.0)
    for turned in (image.copy(order="F"), numpy.ma.MaskedArray(image.copy(order="F"), mask=False)):
        two, second = catalogue(turned, mesh=mesh, gain=1.0)
        assert (first == second).all() and all((one[name] == two[name]).all() for name in one.colnames)
    background, noise = photometry.sky(turned, first.copy(order="F"), mesh)
    found = photometry.measured(turned, background, noise, first.copy(order="F"), one, mask=turned.mask)
    assert numpy.allclose(found["FLUX_AUTO"], one["FLUX_AUTO"], rtol=1e-2)


def test_noise_maps():
    image, _ = star_field()
    noise = numpy.full(image.shape, 5.0)
    noise[:, 140:] = 500.0
    table, _ = catalogue(image, noise=noise)
    assert table["X"].max() < 141
    with pytest.raises(ValueError):
        catalogue(image, noise=noise[1:])
    with pytest.raises(ValueError):
        catalogue(image, rms="uneven")
    with pytest.raises(ValueError):
        catalogue(image[0])


def test_what_is_not_taken():
    image, _ = star_field()
    for settings in (
        {"sigmas": -1},
        {"sigmas": numpy.nan},
        {"mesh": -3},
        {"mesh": 4},
        {"min_area": 0},
        {"min_area": 1.5},
        {"gain": 0},
        {"gain": numpy.inf},
        {"saturation": numpy.nan},
        {"tile": 0},
        {"workers": 0},
    ):
        with pytest.raises(ValueError):
            catalogue(image, **settings)
    with pytest.raises(TypeError):
        catalogue(image + 1j)
    with pytest.raises(TypeError):
        catalogue([["a", "b"]])
    assert len(catalogue(image.tolist())[0]) == len(catalogue(image)[0])


@pytest.mark.parametrize("unit", [1e-25, 1e25])
def test_images_in_very_small_and_very_large_units(stars, unit):
    base, its_map = catalogue(stars[0])
    found, segments = catalogue((stars[0].astype("f8") * unit).astype("f4"))
    assert (segments == its_map).all() and len(found) == 25
    for name in ("FLUX_ISO", "FLUXERR_ISO", "FLUX_AUTO", "FLUXERR_AUTO", "FLUX_APER", "FLUXERR_APER"):
        assert numpy.allclose(found[name] / unit, base[name], rtol=1e-3), name
