"""What the tests share: the package, the program, and star fields whose stars are known."""
import os
import pathlib
import shutil
import sys

import pytest

TOP = pathlib.Path(__file__).resolve().parent.parent.parent
# How many examples of each property are tried.
EXAMPLES = int(os.environ.get("EXAMPLES") or 25)
sys.path.insert(0, str(TOP / "python"))
# Tests run beside each other, and a library's threads that wait for their like would take the others' processors.
for library in ("OMP", "OPENBLAS"):
    os.environ.setdefault(f"{library}_NUM_THREADS", "1")

numpy = pytest.importorskip("numpy")
pytest.importorskip("astropy")
pytest.importorskip("scipy")
pytest.importorskip("sep")


# The tests that take longest, the longest first.
LONG = (
    "test_rms_variance_and_weights_tell_the_same",
    "test_who_cannot_write_the_folder_reads_beside_a_writer",
    "test_a_dask_cluster",
    "test_a_worker_that_is_killed",
    "test_columns_are_the_same_for_all_tiles_and_workers",
    "test_an_array_and_its_file_have_the_same_sources",
    "test_a_click_shows_the_source",
    "test_a_survey_keeps_what_is_added",
    "test_tiles_are_the_whole",
    "test_tiles_decide_as_the_whole_where_the_box_is_wider_than_their_margin",
    "test_a_catalogue_with_all_that_it_tells",
    "test_components_are_cut_by_squares_whatever_the_tiles",
    "test_other_units_change_the_fluxes_alone",
    "test_adds_beside_a_reader",
    "test_a_full_disk",
    "test_an_interrupt_at_any_moment_ends_maxcat_in_silence",
    "test_windows_of_maxcat_are_the_whole_but_for_what_none_holds",
)


def pytest_collection_modifyitems(config, items):
    """Long tests begin first, shared out among the processes, so that in the end none waits for another's. Without the
    programs there is nothing to test; building them would take many minutes.
    """
    names = {it: getattr(it, "originalname", None) for it in items}
    long = sorted((it for it in items if names[it] in LONG), key=lambda it: LONG.index(names[it]))
    rest = [it for it in items if names[it] not in LONG]
    processes = getattr(config, "workerinput", {}).get("workercount", 1)
    # To each process pytest-xdist first gives so many tests that follow each other.
    count, items[:] = len(items) // processes // 4, []
    for process in range(processes):
        items += long[process::processes]
        more = max(count * (process + 1) - len(items), 0)
        items += rest[:more]
        del rest[:more]
    items += rest
    for name in ("maxdetect", "maxwide"):
        if not os.environ.get(name.upper()) and not shutil.which(name):
            for item in items:
                item.add_marker(pytest.mark.skip(reason=f"the environment's {name.upper()} names no program"))


def cut_into_tiles(monkeypatch, side):
    """From here on images are cut into tiles with this side where nothing else is asked."""
    from maxdetect import _detection as detection
    from maxdetect._settings import Settings

    defaults = dict(zip(Settings.__dataclass_fields__, Settings.__init__.__defaults__))
    monkeypatch.setattr(detection, "TILE", side)
    monkeypatch.setattr(Settings, "tile", side)
    monkeypatch.setattr(Settings.__init__, "__defaults__", (*{**defaults, "tile": side}.values(),))


def add_star(image, x, y, flux, width=3.0):
    """A star with a Moffat profile of beta 3; places count from 0."""
    core = width / 2 / (2 ** (1 / 3) - 1) ** 0.5
    rows, columns = numpy.ogrid[: image.shape[0], : image.shape[1]]
    image += flux * 2 / (numpy.pi * core**2) * (1 + ((columns - x) ** 2 + (rows - y) ** 2) / core**2) ** -3


@pytest.fixture(name="both")
def _both(monkeypatch):
    """What a function gives with the loops in C and without."""
    from maxdetect import _loops as loops

    def both(made, *arguments):
        with_them = made(*arguments)
        with monkeypatch.context() as without, numpy.errstate(all="ignore"):
            without.setattr(loops, "library", lambda: None)
            return with_them, made(*arguments)

    return both


@pytest.fixture(scope="session")
def stars():
    """A field of 256 x 256 pixels with 25 stars on a sky of 900 electrons, and the stars' places and fluxes."""
    rng = numpy.random.default_rng(7)
    expected = numpy.zeros((256, 256)) + 900
    places = numpy.array([(x, y) for y in range(28, 256, 50) for x in range(28, 256, 50)]) + rng.uniform(-3, 3, (25, 2))
    fluxes = 10 ** rng.uniform(3.8, 5, 25)
    for (x, y), flux in zip(places, fluxes):
        add_star(expected, x, y, flux)
    return rng.poisson(expected).astype("f4"), places, fluxes
