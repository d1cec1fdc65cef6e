"""A worker that is killed in the middle of an image: the result is whole, or one line says that there is none."""
import concurrent.futures
import os
import signal

import numpy
import pytest

import maxdetect

WORDS = {"min_area": 3, "mesh": 8, "connect": 8}
THRESHOLD = 12


@pytest.fixture(scope="module")
def image():
    return numpy.random.default_rng(11).poisson(100, (160, 120)).astype("i4")


def killing(number):
    """What is called at the first tile, and ends a process as a machine does whose memory is full."""
    left = [number]

    def progress(count):
        if left:
            os.kill(left.pop()(), signal.SIGKILL)

    return progress


def assert_whole_or_told(image, executor, number):
    whole = maxdetect.detect(image, THRESHOLD, **WORDS)
    assert len(whole[0]) > 20
    try:
        found = maxdetect.detect_tiles(image, THRESHOLD, 32, executor, progress=killing(number), **WORDS)
    except Exception as error:
        assert isinstance(error, (maxdetect.Mistake, concurrent.futures.BrokenExecutor)), repr(error)
        assert len(str(error).splitlines()) == 1
        return False
    assert all((found[0][name] == whole[0][name]).all() for name in whole[0].colnames)
    assert (found[1] == whole[1]).all()
    return True


def test_a_pool_of_processes(image):
    with concurrent.futures.ProcessPoolExecutor(2) as pool:
        # One that works, or waits for work: the pool is broken then, and says so.
        assert_whole_or_told(image, pool, lambda: next(iter(pool._processes)))
    with concurrent.futures.ProcessPoolExecutor(2) as pool:
        assert maxdetect.detect_tiles(image, THRESHOLD, 32, pool, **WORDS)[1].any()


def test_a_dask_cluster(image):
    distributed = pytest.importorskip("distributed", reason="wants Dask (Debian: python3-distributed)")
    how = {"n_workers": 2, "threads_per_worker": 1, "processes": True, "dashboard_address": None}
    with distributed.LocalCluster(**how) as cluster, distributed.Client(cluster) as client:
        # Dask gives its tiles to another worker.
        assert assert_whole_or_told(image, client.get_executor(), lambda: cluster.workers[0].pid)
