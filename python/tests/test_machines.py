"""Many images: workers that are lost, schedulers that aren't there, and runs that go on."""
import os
import signal

import numpy
import pytest
from astropy.io import fits
from astropy.table import Table

from conftest import TOP, cut_into_tiles
from maxdetect import _cli as cli, _running as running


@pytest.fixture
def images(tmp_path, monkeypatch, stars):
    """Two images."""
    monkeypatch.chdir(tmp_path)
    for name, turned in (("a.fits", stars[0]), ("b.fits", stars[0].T)):
        fits.writeto(name, turned, fits.Header({"GAIN": 1.0}))


def test_a_worker_that_is_killed(images, monkeypatch):
    distributed = pytest.importorskip("distributed", reason="wants Dask (Debian: python3-distributed)")
    assert cli.main(["a.fits", "-o", "whole.fits", "--map", "whole.map.fits"]) == 0
    cut_into_tiles(monkeypatch, 90)
    monkeypatch.setenv("PYTHONPATH", os.fspath(TOP / "python"))
    how = {"n_workers": 2, "threads_per_worker": 1, "processes": True, "dashboard_address": None}
    with distributed.LocalCluster(**how) as cluster:
        left, told = [cluster.workers[0].pid], running._Progress.__call__

        def killing(self, count):
            if left:
                os.kill(left.pop(), signal.SIGKILL)
            told(self, count)

        monkeypatch.setattr(running._Progress, "__call__", killing)
        words = ["a.fits", "-o", "cat.fits", "--map", "map.fits", "--scheduler", cluster.scheduler_address]
        assert cli.main(words) == 0 and not left
    whole, found = (Table.read(name, hdu="SOURCES") for name in ("whole.fits", "cat.fits"))
    assert len(whole) > 20 and all(
        numpy.array_equal(whole[it], found[it]) for it in ("NUMBER", "X", "FLUX", "FLUX_AUTO")
    )
    assert (fits.getdata("map.fits") == fits.getdata("whole.map.fits")).all()


def test_a_scheduler_that_is_not_there(images, capsys, monkeypatch):
    pytest.importorskip("distributed", reason="wants Dask (Debian: python3-distributed)")
    monkeypatch.setattr("maxdetect._cluster.PATIENCE", 0.5)
    assert cli.main(["a.fits", "--scheduler", "tcp://127.0.0.1:1"]) == 2
    out, err = capsys.readouterr()
    assert out == "" and "no scheduler of Dask's answers" in err and "Traceback" not in err
    assert not os.path.exists("a.cat.fits")


def test_a_run_that_goes_on(images, capsys):
    assert cli.main(["a.fits"]) == 0
    before = os.stat("a.cat.fits").st_mtime_ns
    capsys.readouterr()
    assert cli.main(["a.fits", "b.fits", "--resume"]) == 0
    assert capsys.readouterr().out.splitlines()[0] == "a.cat.fits is there"
    assert os.stat("a.cat.fits").st_mtime_ns == before and os.path.exists("b.cat.fits")
    os.utime("a.fits", ns=(before + 10**9, before + 10**9))
    assert cli.main(["a.fits", "b.fits", "--resume"]) == 0
    assert os.stat("a.cat.fits").st_mtime_ns > before
    assert cli.main(["a.fits", "--resume", "--survey", "s.db"]) == 2
