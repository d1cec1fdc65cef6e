"""Properties that hold for every image and every file, tried on random ones.

The environment's EXAMPLES says how many are tried of each; without it 25 are.
"""
import contextlib
import os
import resource
import signal
import time

import numpy
import pytest
from astropy.table import Table

import forms
import maxdetect
import mutated
from conftest import EXAMPLES
from maxdetect import _cli as cli, _images as images

hypothesis = pytest.importorskip("hypothesis", reason="properties want python3-hypothesis")
st = hypothesis.strategies

trying = hypothesis.settings(
    max_examples=EXAMPLES,
    deadline=None,
    database=None,
    suppress_health_check=list(hypothesis.HealthCheck),
)


@pytest.fixture(scope="module")
def folder(tmp_path_factory):
    """One folder for all examples."""
    return tmp_path_factory.mktemp("examples")


@contextlib.contextmanager
def _within(folder):
    """Within, it is the folder in which the command works."""
    before = os.getcwd()
    os.chdir(folder)
    try:
        yield
    finally:
        os.chdir(before)


# ---- an array against the same image in each form of file


@st.composite
def whole_images(draw):
    """Stored numbers of any kind, what they stand for, and a form that holds them."""
    form, kind = draw(st.sampled_from(forms.FORMS)), draw(st.sampled_from(["u1", "i2", "i4", "i8"]))
    info = numpy.iinfo(kind)
    # Where HCOMPRESS would take more room than astropy has for it, astropy gives up, or writes beyond it.
    least, most = (16, 2**8) if form == "HCOMPRESS_1" else (4, 2**16)
    shape = draw(st.tuples(st.integers(least, 40), st.integers(least, 40)))
    low = draw(st.integers(int(info.min), int(info.max) - 1) | st.integers(0, 100))
    high = min(int(info.max), low + draw(st.integers(1, most)))
    if form == "PLIO_1":
        low, high = 0, 2**15 - 1 if kind != "u1" else 255
    rng = numpy.random.default_rng(draw(st.integers(0, 2**32 - 1)))
    stored = rng.integers(low, high, shape, dtype=kind, endpoint=True)
    stored = forms.in_runs(stored) if form == "PLIO_1" else stored
    cards = draw(
        st.sampled_from([{}, {"BZERO": forms.unsigned_zero(stored)}, {"BZERO": -7}, {"BSCALE": 0.5, "BZERO": 3.25}])
    )
    if draw(st.booleans()):
        cards = {**cards, "BLANK": int(rng.choice(stored.ravel()))}
    hypothesis.assume(forms.holds(form, stored))
    return stored, cards, form


@trying
@hypothesis.given(whole_images())
def test_every_form_has_the_same_numbers(folder, case):
    stored, cards, form = case
    plane = images.opened(forms.written(folder / "image.fits", stored, cards, form))
    wanted = forms.values(stored, cards)
    assert numpy.array_equal(plane.window(slice(None)), wanted, equal_nan=True)
    assert numpy.array_equal(plane.window(slice(1, 3), slice(2, 4)), wanted[1:3, 2:4], equal_nan=True)
    if cards.get("BSCALE", 1) == 1 and -(2**63) <= int(stored.min()) + cards.get("BZERO", 0):
        defined = ~numpy.isnan(wanted)
        loaded = maxdetect.load(plane.path, plane.number)
        exact = stored.astype(object) + cards.get("BZERO", 0)
        assert numpy.array_equal(numpy.ma.getmaskarray(loaded), ~defined)
        assert (numpy.ma.getdata(loaded).astype(object)[defined] == exact[defined]).all()


@st.composite
def fields(draw):
    """A few sources on a sky of whole numbers, some of them undefined, and a form of a file."""
    form, kind = draw(st.sampled_from(forms.FORMS)), draw(st.sampled_from(["i2", "i4", "i8"]))
    rng = numpy.random.default_rng(draw(st.integers(0, 2**32 - 1)))
    shape = tuple(draw(st.integers(24, 90)) for _ in range(2))
    image = rng.normal(200, draw(st.sampled_from([2, 5, 20])), shape)
    for y, x in rng.integers(3, min(shape) - 3, (4, 2)):
        image[y - 2 : y + 3, x - 2 : x + 3] += rng.integers(50, 3000)
    stored = numpy.clip(image, 1, 30000).astype(kind)
    stored[rng.random(shape) < draw(st.sampled_from([0, 0.01]))] = 0
    cards = {"BLANK": 0, **draw(st.sampled_from([{}, {"BZERO": 1000}, {"BSCALE": 0.5}]))}
    hypothesis.assume(forms.holds(form, stored))
    return stored, cards, form


@trying
@hypothesis.given(fields())
def test_an_array_and_its_file_have_the_same_sources(folder, case):
    stored, cards, form = case
    with _within(folder):
        path, output = forms.written(folder / "field.fits", stored, cards, form), "field.cat.fits"
        assert cli.main([path, "-o", output]) == 0
        found = Table.read(output)
        # 32 bits are the same image in another rounding, where they hold its numbers.
        kind = images.opened(path).window(slice(0, 1)).dtype
        wanted, _ = maxdetect.catalogue(forms.values(stored, cards).astype(kind))
    assert len(found) == len(wanted)
    for name in wanted.colnames:
        assert numpy.array_equal(found[name], wanted[name], equal_nan=True), name


# ---- files that differ from good ones in a few cards or bytes


FILES = mutated.corpus()
NUMBERS = st.integers(0, 2**20)
CHANGES = st.one_of(
    st.tuples(st.just("value"), NUMBERS, st.sampled_from(mutated.VALUES)),
    st.tuples(st.sampled_from(["byte", "data"]), NUMBERS, st.integers(0, 255)),
    st.tuples(st.sampled_from(["twice", "gone", "cut"]), NUMBERS, st.none()),
)
WORDS = (
    *(["bad.fits"], ["bad.fits", "--map", "map.fits"], ["bad.fits", "--hdu", "all", "--map", "map.fits"]),
    *(
        ["bad.fits", "--plane", "1"],
        ["bad.fits", "--hdu", "1", "--workers", "1"],
        ["good.fits", "--weight", "bad.fits"],
    ),
    *(["good.fits", "--mask", "bad.fits"], ["good.fits", "--measure", "bad.fits"]),
)
# Seconds of the processor for a file, seconds of the clock after which it counts as hung, and megabytes.
MOST_SECONDS, HUNG, MOST_MEGABYTES = 1, 30, 100


def _hung(number, frame):
    raise TimeoutError("it hangs")


@contextlib.contextmanager
def _watched():
    """Within, no more than a second and a part of the memory may be taken."""
    earlier = signal.signal(signal.SIGALRM, _hung)
    signal.alarm(HUNG)
    start, peak = time.process_time(), resource.getrusage(resource.RUSAGE_SELF).ru_maxrss
    try:
        yield
    finally:
        signal.alarm(0)
        signal.signal(signal.SIGALRM, earlier)
    assert time.process_time() - start < MOST_SECONDS
    assert (resource.getrusage(resource.RUSAGE_SELF).ru_maxrss - peak) / 1024 < MOST_MEGABYTES


@trying
@hypothesis.given(st.sampled_from(sorted(FILES)), st.lists(CHANGES, min_size=1, max_size=3), st.sampled_from(WORDS))
def test_a_changed_file_is_done_or_told_in_one_line(folder, capsys, name, changes, words):
    pack, content = FILES[name]
    with _within(folder):
        for left in os.listdir("."):
            os.unlink(left)
        (folder / "good.fits").write_bytes(FILES["floats"][1])
        (folder / "bad.fits").write_bytes(pack(mutated.changed(content, changes)))
        capsys.readouterr()
        with _watched():
            status = cli.main([*words, "-o", "cat.fits"])
        out, err = capsys.readouterr()
        made = sorted(set(os.listdir(".")) - {"good.fits", "bad.fits"})
    assert all(line.startswith("maxcat: ") for line in err.splitlines())
    if status == 0:
        assert made == ["cat.fits", *(["map.fits"] if "--map" in words else [])] and out.count("\n") == 1
    else:
        assert status == 2 and out == "" and err.count("\n") == 1 and made == []
