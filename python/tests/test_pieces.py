"""Parts of components that are sources of their own."""
import math

import numpy
import pytest
from scipy import ndimage

from maxdetect import _groups as groups, _kernel as kernel, _pieces as pieces

ALL = numpy.ones((3, 3))
THRESHOLD = 40


def light(area, flux, level):
    """Deviations of a noise of 30 that pixels don't share."""
    return flux / 30 / math.sqrt(area) if area else 0.0


def crowd(seed, shape=(90, 110)):
    """Hills that touch, with noise of 30 on them, in places undefined."""
    rng = numpy.random.default_rng(seed)
    image = numpy.zeros(shape)
    image[rng.integers(0, shape[0], 40), rng.integers(0, shape[1], 40)] = 10 ** rng.uniform(3, 4.5, 40)
    image = ndimage.gaussian_filter(image, rng.uniform(1.2, 3)) + rng.normal(0, 30, shape)
    image = numpy.rint(image).astype("i4")
    if seed % 2:
        image[rng.random(shape) < 0.02] = kernel.LEAST
    return image


class Drawn:
    """The sources of an image with their map, and one without gaps."""

    def __init__(self, parts, image):
        painted = numpy.zeros(image.shape, dtype="i4")
        painted.ravel()[parts.places] = numpy.where(parts.shown, parts.owners, -parts.owners)
        self.catalogue, self.segments, self.labels = parts.catalogue, numpy.maximum(painted, 0), numpy.abs(painted)
        self.components = parts.components


def found(image, least, min_area=2, significance=light):
    options = dict(mesh=0, min_area=min_area, contrast=0, connect=8)
    catalogue, segments = kernel.detect_stored(image, THRESHOLD, **options)
    parts = pieces.sources(image, catalogue, segments, THRESHOLD, significance, least)
    return Drawn(parts, image), catalogue, segments


def rows(table, but=("NUMBER",)):
    return [tuple(row[name] for name in table.colnames if name not in but) for row in table]


@pytest.mark.parametrize("least", [0, 2, 6])
@pytest.mark.parametrize("seed", range(8))
def test_each_pixel_of_a_component_is_shared_out(seed, least):
    image = crowd(seed)
    parts, catalogue, segments = found(image, least)
    above = image >= THRESHOLD
    components, count = ndimage.label(above, ALL)
    with_source = numpy.unique(components[parts.segments != 0])
    assert len(with_source) > 3 and (parts.labels[numpy.isin(components, with_source) & above] != 0).all()
    assert (parts.labels[~numpy.isin(components, with_source)] == 0).all()
    # Its label is that of a source of the same component, and a source's own pixels stay its own.
    owners = numpy.zeros(len(parts.catalogue) + 1, dtype=int)
    owners[1:] = components[parts.catalogue["YFIRST"] - 1, parts.catalogue["XFIRST"] - 1]
    shared = parts.labels != 0
    assert (owners[parts.labels[shared]] == components[shared]).all()
    # Sources of one component have one number for it, and no others have that.
    pairs = set(zip(parts.components[1:].tolist(), owners[1:].tolist()))
    assert len(pairs) == len({one for one, _ in pairs}) == len({other for _, other in pairs})
    mapped = parts.segments != 0
    assert (parts.labels[mapped] == parts.segments[mapped]).all()
    # What is one source is one piece.
    for number in range(1, len(owners)):
        assert ndimage.label(parts.labels == number, ALL)[1] == 1


@pytest.mark.parametrize("seed", range(6))
def test_the_rows_and_the_map_agree(seed):
    parts, _, _ = found(crowd(seed), 4)
    table, segments = parts.catalogue, parts.segments
    assert (table["NUMBER"] == numpy.arange(1, len(table) + 1)).all() and segments.max() == len(table)
    assert (numpy.bincount(segments.ravel())[1:] == table["AREA"]).all()
    assert (segments[table["YFIRST"] - 1, table["XFIRST"] - 1] == table["NUMBER"]).all()
    firsts = list(zip(table["YFIRST"], table["XFIRST"]))
    assert firsts == sorted(firsts)
    assert (table["BASE"] < table["LEVEL"]).all()


@pytest.mark.parametrize("seed", range(4))
def test_nothing_is_joined_with_no_deviations(seed):
    parts, catalogue, segments = found(crowd(seed), 0)
    assert rows(parts.catalogue, ()) == rows(catalogue, ()) and (parts.segments == segments).all()


@pytest.mark.parametrize("seed", range(6))
def test_more_deviations_join_more(seed):
    image, least = crowd(seed), (0, 1, 3, 10, 1e9)
    counts = [len(found(image, it)[0].catalogue) for it in least]
    assert counts == sorted(counts, reverse=True) and counts[0] > counts[-1]
    # At last each component is one source, with the program's row.
    options = dict(mesh=0, min_area=2, contrast=1000, connect=8)
    whole, segments = kernel.detect_stored(image, THRESHOLD, **options)
    parts = found(image, 1e9)[0]
    assert rows(parts.catalogue) == rows(whole) and (parts.segments == segments).all()


def two_peaks(second, between=100, first=1000):
    """Two peaks of three pixels each on a hill of one level."""
    image = numpy.zeros((7, 15), dtype="i4")
    image[1:6, 1:14] = between
    image[3, 3:6], image[3, 9:12] = first, between + second
    return image


def test_parts_without_significance_are_joined():
    # Three pixels of 60 above where they meet are 3.46 deviations.
    for least, count in ((3.4, 2), (3.5, 1)):
        parts, catalogue, _ = found(two_peaks(60), least)
        assert len(catalogue) == 2 and len(parts.catalogue) == count
    joined = parts.catalogue.table()[0]
    assert (joined["AREA"], joined["LEVEL"], joined["BASE"], joined["PEAK"]) == (65, 100, 0, 1000)
    assert joined["FLUX"] == 65 * 100 + 3 * 900 + 3 * 60 and (parts.labels[1:6, 1:14] == 1).all()


def test_the_fainter_part_goes_to_the_brighter_one_wherever_it_stands():
    image = two_peaks(60)
    for seen in (image, image[:, ::-1].copy(), numpy.ascontiguousarray(image.T)):
        parts, _, _ = found(seen, 4)
        assert len(parts.catalogue) == 1 and parts.catalogue["FLUX"][0] == 9380


def test_a_part_is_joined_with_what_it_meets_first():
    """A faint peak on a bright one's shoulder goes to that one; a third stands alone still."""
    image = numpy.zeros((5, 21), dtype="i4")
    image[1:4, 1:20] = 50
    image[2, 2:5], image[2, 5], image[2, 6:9] = 2000, 500, 530
    image[2, 14:17] = 1500
    parts, catalogue, _ = found(image, 3)
    assert len(catalogue) == 3 and parts.catalogue["PEAK"].tolist() == [2000, 1500]
    # The node reaches down to where it meets the next source.
    assert parts.catalogue["BASE"].tolist() == [50, 50] and parts.catalogue["AREA"].tolist() == [7, 3]
    assert parts.labels[2, 7] == 1 and parts.labels[2, 15] == 2 and (parts.labels[1:4, 1:20] != 0).all()


def test_a_significance_that_knows_the_level():
    """Where the noise grows with the light, a peak on much light is joined sooner."""

    def counted(area, flux, level):
        return flux / math.sqrt(area * (900 + 30 * level)) if area else 0.0

    low, high = two_peaks(200, 100), two_peaks(200, 900, 3000)
    assert len(found(low, 5, significance=counted)[0].catalogue) == 2
    assert len(found(high, 5, significance=counted)[0].catalogue) == 1
    assert len(found(high, 5)[0].catalogue) == 2


@pytest.mark.parametrize("least", [0, 3])
@pytest.mark.parametrize("seed", range(10))
def test_a_window_gives_the_whole_components_sources(seed, least):
    """Of a component that a window holds with its neighbours it shows the sources, to each column and pixel."""
    image, rng = crowd(seed), numpy.random.default_rng(seed)
    whole = found(image, least)[0]
    top, left = (int(it) for it in rng.integers(0, 30, 2))
    bottom, right = (int(it) for it in (rng.integers(60, 90), rng.integers(70, 110)))
    part = found(numpy.ascontiguousarray(image[top:bottom, left:right]), least)[0]
    components, count = ndimage.label(image >= THRESHOLD, ALL)
    held, seen = 0, (slice(top, bottom), slice(left, right))
    for number, (y, x) in enumerate(ndimage.find_objects(components), 1):
        if not (top < y.start and y.stop < bottom and left < x.start and x.stop < right):
            continue
        own = components == number
        sources = numpy.unique(whole.labels[own])
        sources = sources[sources > 0]
        inside = numpy.unique(part.labels[own[seen]])
        inside = inside[inside > 0]
        assert len(sources) == len(inside)
        held += len(sources)
        for one, other in zip(sources, inside):
            assert ((whole.labels == one)[seen] == (part.labels == other)).all()
            assert ((whole.segments == one)[seen] == (part.segments == other)).all()
            row, moved = (
                {name: values[at - 1] for name, values in it.catalogue.items()}
                for it, at in ((whole, one), (part, other))
            )
            for names, by in ((("XMIN", "XMAX", "XFIRST"), left), (("YMIN", "YMAX", "YFIRST"), top)):
                moved.update({name: moved[name] + by for name in names})
            moved.update(XCEN=moved["XCEN"] + 1000 * left, YCEN=moved["YCEN"] + 1000 * top)
            assert all(row[name] == moved[name] for name in whole.catalogue.colnames if name != "NUMBER")
    assert held


def test_images_without_sources():
    for image in (numpy.zeros((9, 9), dtype="i4"), numpy.full((9, 9), kernel.LEAST, dtype="i4")):
        parts, _, _ = found(image, 2)
        assert len(parts.catalogue) == 0 and not parts.labels.any() and not parts.segments.any()
    image = numpy.zeros((9, 9), dtype="i4")
    image[4, 4] = 100
    parts, _, _ = found(image, 2)
    # A component with less than the least area belongs to nothing.
    assert len(parts.catalogue) == 0 and not parts.labels.any()


def test_an_image_that_is_one_component():
    parts, _, _ = found(numpy.full((20, 20), 300, dtype="i4") + numpy.arange(20, dtype="i4"), 2)
    assert len(parts.catalogue) == 1 and (parts.labels == 1).all() and parts.catalogue["AREA"][0] == 400


def test_more_is_needed_on_wide_parts():
    assert groups.needed(15, 1.0, 15.0) == groups.needed(1, 1.0, 15.0) == 1.0
    assert groups.needed(1500, 1.0, 15.0) == pytest.approx(math.sqrt(1 + 2 * math.log(100)))
    assert groups.needed(10**9, 2.0, math.inf) == 2.0


def test_a_wide_source_keeps_its_peaks_of_noise():
    """Of a disc with noise on it more pieces are left where nothing is known of how wide it is."""
    rows, columns = numpy.mgrid[:120, :120] - 60
    disc = numpy.where(numpy.hypot(rows, columns) < 50, 400, 0)
    noise = ndimage.gaussian_filter(numpy.random.default_rng(6).normal(0, 1, disc.shape), 1.2)
    image = numpy.rint(disc + 30 * noise / noise.std()).astype("i4")
    catalogue, segments = kernel.detect_stored(image, THRESHOLD * 3, mesh=0, min_area=3, contrast=0, connect=8)
    counts = [
        len(pieces.sources(image, catalogue, segments, THRESHOLD * 3, light, 1.0, patch).catalogue)
        for patch in (math.inf, 60.0, 1.0)
    ]
    assert counts[0] > counts[1] >= counts[2] >= 1
