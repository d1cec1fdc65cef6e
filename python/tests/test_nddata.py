"""Images of astropy's NDData and CCDData give what their arrays, masks, noise, units and WCS give."""
import numpy
import pytest
from astropy import units
from astropy.io import fits
from astropy.nddata import CCDData, InverseVariance, NDData, StdDevUncertainty, UnknownUncertainty, VarianceUncertainty
from astropy.wcs import WCS

import maxdetect
from maxdetect import photometry, scaling

KINDS = [(StdDevUncertainty, 1), (VarianceUncertainty, 2), (InverseVariance, -2)]


def placed():
    """A WCS of the stars' field."""
    wcs = WCS(naxis=2)
    wcs.wcs.ctype, wcs.wcs.crval, wcs.wcs.crpix = ["RA---TAN", "DEC--TAN"], [150.0, 2.0], [128.5, 128.5]
    wcs.wcs.cdelt = [-1e-4, 1e-4]
    return wcs


def noisy(image):
    """A mask and a map of the noise."""
    mask = numpy.zeros(image.shape, dtype=bool)
    mask[100:140, 60:90] = True
    return mask, numpy.linspace(28, 34, image.size, dtype="f4").reshape(image.shape)


def same(one, other):
    (table, segments), (wanted, map_wanted) = one, other
    assert table.colnames == wanted.colnames and len(table) > 10
    for name in table.colnames:
        assert table[name].unit == wanted[name].unit, name
        numpy.testing.assert_array_equal(table[name], wanted[name])
    assert (segments == map_wanted).all()


@pytest.mark.parametrize("kind, power", KINDS)
def test_a_catalogue_is_that_of_the_parts(stars, kind, power):
    mask, noise = noisy(stars[0])
    wanted = maxdetect.catalogue(
        numpy.ma.MaskedArray(stars[0], mask),
        noise=(noise.astype("f8") ** power) ** (1 / power),
        header=fits.Header([*placed().to_header().cards, ("BUNIT", "adu")]),
        gain=1.0,
    )
    image = CCDData(stars[0], unit="adu", mask=mask, wcs=placed(), uncertainty=kind(noise.astype("f8") ** power))
    found = maxdetect.catalogue(image, gain=1.0)
    same(found, wanted)
    assert found[0]["FLUX_AUTO"].unit == units.adu and "RA" in found[0].colnames


def test_an_uncertainty_has_a_unit_of_its_own(stars):
    _, noise = noisy(stars[0])
    image = NDData(stars[0], unit="mJy", uncertainty=StdDevUncertainty(noise.astype("f8") * 1000, unit="uJy"))
    wanted = maxdetect.catalogue(stars[0], noise=noise.astype("f8"), header=fits.Header({"BUNIT": "mJy"}))
    same(maxdetect.catalogue(image), wanted)


def test_a_part_of_an_image_has_its_places(stars):
    image = CCDData(stars[0], unit="adu", wcs=placed())
    whole, part = maxdetect.catalogue(image)[0], maxdetect.catalogue(image[40:, 30:])[0]
    assert len(maxdetect.match(part, whole, 0.3)) > 0.8 * len(part) > 8


def test_an_array_alone_is_an_image(stars):
    same(maxdetect.catalogue(NDData(stars[0])), maxdetect.catalogue(stars[0]))
    table, _ = maxdetect.catalogue(NDData(stars[0], wcs=placed()), header=fits.Header({"BUNIT": "adu"}))
    assert table["FLUX_AUTO"].unit == units.adu and "RA" in table.colnames


def test_noise_and_scaling_leave_out_the_mask(stars):
    mask, _ = noisy(stars[0])
    masked, image = numpy.ma.MaskedArray(stars[0], mask), NDData(stars[0], mask=mask)
    assert maxdetect.noise(image) == maxdetect.noise(masked)
    assert (maxdetect.noise_map(image) == maxdetect.noise_map(masked)).all()
    (one, *facts), (other, *others) = scaling.prepared(image), scaling.prepared(masked)
    assert (one.filled(0) == other.filled(0)).all() and (one.mask == other.mask).all() and facts == others


def test_photometry(stars):
    mask, noise = noisy(stars[0])
    numbers, _, scale = scaling.prepared(stars[0])
    catalogue, segments = maxdetect.detect(numbers, round(8 * 30), min_area=5, mesh=64, connect=8)
    image = CCDData(stars[0], unit="adu", mask=mask, uncertainty=StdDevUncertainty(noise))
    level, sigma = photometry.sky(image, segments)
    wanted, sigma_wanted = photometry.sky(stars[0], segments, mask=mask)
    assert (level == wanted).all() and sigma == sigma_wanted and scale > 0
    found = photometry.measured(image, level, None, segments, catalogue)
    other = photometry.measured(stars[0], level, noise.astype("f8"), segments, catalogue, mask=mask)
    for name in found.colnames:
        numpy.testing.assert_array_equal(found[name], other[name])


def test_an_image_is_saved_with_its_mask_unit_and_wcs(tmp_path, stars):
    mask, _ = noisy(stars[0])
    path = tmp_path / "image.fits"
    maxdetect.save(CCDData(stars[0], unit="adu", mask=mask, wcs=placed()), path, fits.Header({"OBJECT": "M31"}))
    values, header = fits.getdata(path, header=True)
    assert (numpy.isnan(values) == mask).all() and (values[~mask] == stars[0][~mask]).all()
    assert (header["OBJECT"], header["BUNIT"], header["CTYPE1"]) == ("M31", "adu", "RA---TAN")
    assert WCS(header).wcs_pix2world(5, 7, 1) == pytest.approx(placed().wcs_pix2world(5, 7, 1))


class Elsewhere:
    """Sky coordinates of another kind."""


def mistakes(image):
    """Calls with an image that are mistakes, and what is told of them."""
    mask, noise = noisy(image)
    own = CCDData(image, unit="adu", mask=mask, wcs=placed(), uncertainty=StdDevUncertainty(noise))
    yield "a mask is given twice", lambda: photometry.sky(own, mask, mask=mask)
    yield "a mask is given twice", lambda: photometry.measured(own, 0, None, mask, {}, mask=mask)
    yield "the noise is given twice", lambda: maxdetect.catalogue(own, noise=noise)
    yield "the noise is given twice", lambda: photometry.measured(own, 0, noise, mask, {})
    yield "the noise is wanted", lambda: photometry.measured(image, 0, None, mask, {})
    yield "sky coordinates are given twice", lambda: maxdetect.catalogue(own, header=placed().to_header())
    yield "sky coordinates are given twice", lambda: maxdetect.save(own, "no.fits", placed().to_header())
    yield "units are given twice: adu", lambda: maxdetect.catalogue(own, header=fits.Header({"BUNIT": "Jy"}))
    unknown = NDData(image, uncertainty=UnknownUncertainty(noise))
    yield "of the kind unknown isn't taken", lambda: maxdetect.catalogue(unknown)


@pytest.mark.parametrize("which", range(9))
def test_what_is_given_twice_is_a_mistake_of_one_line(stars, which, tmp_path, monkeypatch):
    monkeypatch.chdir(tmp_path)
    told, call = list(mistakes(stars[0]))[which]
    with pytest.raises(maxdetect.Mistake, match=told) as caught:
        call()
    assert "\n" not in str(caught.value) and not list(tmp_path.iterdir())


def test_other_sky_coordinates_are_not_taken(stars, monkeypatch):
    image = NDData(stars[0])
    monkeypatch.setattr(NDData, "wcs", Elsewhere())
    with pytest.raises(maxdetect.Mistake, match="by Elsewhere aren't taken"):
        maxdetect.catalogue(image)


def test_a_mask_of_another_shape(stars):
    with pytest.raises(ValueError, match="mask has the sides"):
        maxdetect.noise(NDData(stars[0], mask=numpy.zeros((3, 3), dtype=bool)))
