"""What is held in memory goes with a tile: maps in files, windows that are read some rows at a time, one program."""
import os
import threading
import time

import numpy
import pytest
from astropy.io import fits

from maxdetect import (
    _cataloguing as cataloguing,
    _cli as cli,
    _detection as detection,
    _fitstables as fitstables,
    _images as images,
    _kernel as kernel,
    _maps as maps,
    _wholenumbers as wholenumbers,
)
from maxdetect._arrays import ArrayPlane


def pages(array):
    """How many kilobytes of an array in a file are in memory."""
    start = array.__array_interface__["data"][0]
    with open("/proc/self/smaps", encoding="ascii") as lines:
        for line in lines:
            if line.split("-")[0] == f"{start:08x}":
                return next(int(more.split()[1]) for more in lines if more.startswith("Rss:"))
    return None


def test_a_map_in_a_file_is_let_go(tmp_path):
    made = numpy.memmap(tmp_path / "map", "i4", "w+", shape=(1024, 2048))
    for count, rows in enumerate(maps.bands(made)):
        made[rows] = count
        assert 2048 <= pages(made) < 4096
    assert pages(made) == 0 and made[:, 0].tolist() == numpy.repeat(range(4), 256).tolist()
    plain = numpy.ones((300, 2), dtype="i4")
    assert [plain[rows].shape for rows in maps.bands(plain)] == [(256, 2), (44, 2)]


def written(folder, *words):
    """The bytes of the catalogue that maxcat writes."""
    assert cli.main([*words, "-o", "cat.fits"]) == 0
    return (folder / "cat.fits").read_bytes()


@pytest.fixture
def here(tmp_path, monkeypatch, stars):
    monkeypatch.chdir(tmp_path)
    fits.writeto("image.fits", stars[0])
    return tmp_path


def test_a_large_map_stands_in_a_file(here, monkeypatch):
    before, made = written(here, "image.fits"), []
    scratch = cataloguing._scratch_map
    monkeypatch.setattr(cataloguing, "LARGE", 1000)
    monkeypatch.setattr(cataloguing, "_scratch_map", lambda *given: made.append(given[0]) or scratch(*given))
    assert written(here, "image.fits") == before and made == [(256, 256)]
    # Without room on the disk it stands in memory.
    monkeypatch.setattr(cataloguing.planefiles, "make_room", lambda file, size: (_ for _ in ()).throw(OSError(28, "")))
    assert written(here, "image.fits") == before and sorted(os.listdir()) == ["cat.fits", "image.fits"]


def test_rows_are_read_and_written_some_at_a_time(here, monkeypatch, stars):
    before = written(here, "image.fits")
    for module, count in ((images, 7), (wholenumbers, 11), (fitstables, 3)):
        monkeypatch.setattr(module, "AT_ONCE", count)
    assert written(here, "image.fits") == before
    found = images.opened("image.fits").window(slice(3, 90), slice(5, 50))
    assert (found == stars[0][3:90, 5:50]).all() and found.flags.c_contiguous


def test_the_next_window_is_prepared_while_the_program_works(monkeypatch, stars):
    """Programs look at two tiles at once, and another thread is at work meanwhile."""
    field = detection.Field(ArrayPlane(stars[0]), detection.Settings(tile=90))
    whole = detection.sources(detection.Field(ArrayPlane(stars[0]), detection.Settings()))
    running, together, threads, answered = [], [], set(), kernel.answered

    def watched(*given, **more):
        running.append(threading.current_thread())
        together.append(len(running))
        threads.add(threading.current_thread())
        try:
            time.sleep(0.02)
            return answered(*given, **more)
        finally:
            running.pop()

    monkeypatch.setattr(kernel, "answered", watched)
    tiled = detection.sources(field)
    assert max(together) == 2 and len(threads) == 3
    assert (tiled["NUMBER"] == whole["NUMBER"]).all() and (tiled["FLUX_ISO"] == whole["FLUX_ISO"]).all()
