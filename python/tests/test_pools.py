"""Workers that are processes: the same rows for any number of them, and an end in one line with nothing left."""
import itertools
import os
import pathlib
import signal
import subprocess
import sys
import time

import numpy
import pytest
from astropy.io import fits

from conftest import add_star, cut_into_tiles
from maxdetect import (
    _cataloguing as cataloguing,
    _cli as cli,
    _images as images,
    _maps as maps,
    _pools as pools,
    _running as running,
)
from maxdetect._errors import Mistake

TOP = pathlib.Path(__file__).resolve().parent.parent.parent
ENVIRONMENT = {**os.environ, "PYTHONPATH": str(TOP / "python")}

pytestmark = pytest.mark.skipif(not pools._can_fork(), reason="wants a system that forks processes")


@pytest.fixture
def here(tmp_path, monkeypatch):
    """A folder with an image of several blocks, and small ones."""
    rng = numpy.random.default_rng(5)
    expected = numpy.full((64, 2100), 900.0)
    for x in range(20, 2090, 40):
        add_star(expected, x + rng.uniform(-3, 3), 32 + rng.uniform(-9, 9), 10 ** rng.uniform(3.5, 5))
    image = rng.poisson(expected).astype("f4")
    fits.writeto(tmp_path / "image.fits", image)
    for number in range(4):
        fits.writeto(tmp_path / f"{number}.fits", image[:, 200 * number : 200 * number + 300])
    monkeypatch.chdir(tmp_path)
    return tmp_path


def table(path):
    with fits.open(path) as hdus:
        return hdus["SOURCES"].data.tobytes()


def test_work_is_given_values_by_name():
    with pools.workers(1) as pool:
        assert pool.submit(int, "11", base=2).result() == 3


def test_any_number_of_workers_finds_the_same(here):
    assert cli.main(["image.fits", "--workers", "1", "-o", "one.fits", "--map", "one.map.fits"]) == 0
    assert cli.main(["image.fits", "--workers", "3", "-o", "three.fits", "--map", "three.map.fits"]) == 0
    assert table("one.fits") == table("three.fits") and len(table("one.fits"))
    assert pathlib.Path("one.map.fits").read_bytes() == pathlib.Path("three.map.fits").read_bytes()
    names = [f"{number}.fits" for number in range(4)]
    assert cli.main([*names, "--workers", "1"]) == 0
    alone = [table(f"{number}.cat.fits") for number in range(4)]
    for workers in ("3", "8"):
        # A worker for each file; and a few files whose tiles share the workers.
        assert cli.main([*names, "--workers", workers]) == 0
        assert [table(f"{number}.cat.fits") for number in range(4)] == alone


def test_all_looks_at_the_pixels_are_the_workers(here, monkeypatch):
    image = numpy.random.default_rng(7).normal(500, 4, (600, 560))
    for y, x in itertools.product(range(50, 600, 60), range(50, 560, 60)):
        add_star(image, x, y, 2e4)
    fits.writeto("square.fits", image.astype("f4"))
    cut_into_tiles(monkeypatch, 256)
    monkeypatch.setattr(running.measuring, "BLOCK", 256)
    assert cli.main(["square.fits", "--workers", "1", "-o", "one.fits"]) == 0
    seen, read = here / "seen", images.Plane.window

    def watched(*given):
        with open(seen, "a", encoding="ascii") as file:
            file.write(f"{os.getpid()}\n")
        return read(*given)

    # Workers are forked, so they have what stands in its place here.
    monkeypatch.setattr(images.Plane, "window", watched)
    assert cli.main(["square.fits", "--workers", "2", "-o", "two.fits"]) == 0
    assert table("one.fits") == table("two.fits") and len(table("one.fits"))
    assert 1 <= len(set(seen.read_text().split()) - {str(os.getpid())}) <= 2
    assert str(os.getpid()) not in seen.read_text().split()


def test_a_map_in_a_file_is_not_sent(here, monkeypatch):
    sent, state = [], maps.Part.__getstate__

    def watched(part):
        sent.append(state(part))
        return sent[-1]

    monkeypatch.setattr(maps.Part, "__getstate__", watched)
    words = ["image.fits", "--workers", "2", "-o"]
    assert cli.main([*words, "small.fits"]) == 0
    assert sent and all(it["_pixels"] is not None for it in sent)
    sent.clear()
    monkeypatch.setattr(cataloguing, "LARGE", 1000)
    assert cli.main([*words, "large.fits"]) == 0
    assert cli.main([*words, "mapped.fits", "--map", "map.fits"]) == 0
    assert sent and all(it["_pixels"] is None for it in sent)
    assert table("small.fits") == table("large.fits") == table("mapped.fits")
    numbers = numpy.unique(fits.getdata("map.fits"))
    assert numbers.tolist() == list(range(len(fits.getdata("small.fits", 1)) + 1))


def doubled(part):
    part.pixels()[:] *= 2
    return part.pixels().sum()


def test_workers_write_into_a_map_in_a_file():
    with pools.Processes(2, 1) as pool, pool.file() as file:
        file.truncate(4 * 300 * 20)
        made = maps.in_file(file, (300, 20))
        made[:] = 1
        parts = [maps.Part(made, rows, slice(5, 9), pool) for rows in maps.bands(made)]
        assert [pool.submit(doubled, part).result() for part in parts] == [2 * 256 * 4, 2 * 44 * 4]
        assert (made[:, 5:9] == 2).all() and made.sum() == 300 * 24
        # One in memory is sent, and stays as it is; so do threads and this process find it.
        plain = numpy.ones((300, 20), dtype="i4")
        assert not maps.is_shared(plain, pool) and not maps.is_shared(made[1:], pool)
        assert pool.submit(doubled, maps.Part(plain, slice(2, 4), executor=pool)).result() == 80
        assert (plain == 1).all() and maps.is_shared(plain, None)
        assert doubled(maps.Part(plain, slice(2, 4))) == 80 and plain.sum() == 6040


def test_a_map_in_a_file_without_a_name_is_sent(monkeypatch):
    memmap = numpy.memmap

    def unnamed(file, *given, **more):
        if isinstance(file, str):
            raise FileNotFoundError(file)
        return memmap(file, *given, **more)

    with pools.Processes(1, 1) as pool, pool.file() as file:
        file.truncate(4 * 12)
        monkeypatch.setattr(numpy, "memmap", unnamed)
        made = maps.in_file(file, (3, 4))
        monkeypatch.undo()
        made[:] = 3
        assert not maps.is_shared(made, pool)
        assert pool.submit(doubled, maps.Part(made, slice(0, 2), executor=pool)).result() == 48 and (made == 3).all()


def test_a_file_of_the_workers_serves_again_where_all_went_well():
    with pools.Processes(1, 1) as pool:
        for _ in range(2):
            with pool.file() as file, pool.file() as other:
                assert other is None and file.seek(0, 2) == 0
                file.write(b"map")
        with pytest.raises(ZeroDivisionError), pool.file() as file:
            raise ZeroDivisionError
        with pool.file() as other:
            assert file.closed and other is None


def test_what_comes_in_a_workers_way_comes_through():
    with pools.Processes(2) as pool:
        assert [it.result() for it in [pool.submit(divmod, 7, number) for number in (2, 3)]] == [(3, 1), (2, 1)]
        with pytest.raises(ZeroDivisionError):
            pool.submit(divmod, 7, 0).result()
        with pytest.raises(Mistake, match="can't be sent"):
            pool.submit(memoryview, b"").result()
        assert pool.submit(max, 1, 2).result() == 2


class _Unreadable:
    """What can be sent, and not taken up."""

    def __reduce__(self):
        return int, ("no number",)


@pytest.mark.parametrize("count", [1, 2])
def test_what_can_not_be_sent_or_taken_up_is_told_and_no_worker_is_waited_for(count):
    with pools.Processes(count) as executor:
        for _ in range(3):
            with pytest.raises(Exception, match="[Pp]ickle"):
                executor.submit(lambda: 1).result(timeout=60)
        assert executor.submit(abs, -3).result(timeout=60) == 3
        for _ in range(count):
            with pytest.raises(ValueError, match="no number"):
                executor.submit(_Unreadable).result(timeout=60)
        with pytest.raises(pools.Lost):
            executor.submit(abs, -3).result(timeout=60)


def test_a_worker_that_is_killed():
    with pools.Processes(2) as pool:
        killed = pool.submit(os.kill, pool._workers[0].process.pid, signal.SIGKILL)
        asleep = pool.submit(time.sleep, 0.2)
        outcomes = [it.exception() for it in (killed, asleep)]
        assert sum(isinstance(it, Mistake) for it in outcomes) <= 1
        # The other one goes on.
        later = [pool.submit(max, number, 2).exception() for number in range(4)]
        assert sum(it is None for it in later) >= 3
    assert not any(worker.process.is_alive() for worker in pool._workers)


@pytest.mark.parametrize("names", [["image.fits"], ["0.fits", "1.fits"]])
def test_a_worker_that_is_killed_is_told_in_one_line(here, names, monkeypatch, capsys):
    def killing(*given, **more):
        os.kill(os.getpid(), signal.SIGKILL)

    # Workers are forked, so they have what stands in its place here.
    monkeypatch.setattr(running.measuring.photometry, "measured", killing)
    assert cli.main([*names, "--workers", "2"]) == 2
    lines = capsys.readouterr().err.splitlines()
    assert lines == [f"maxcat: {name}: {pools.Lost()}" for name in names]
    assert not list(here.glob("*.cat.fits"))


def left(folder):
    """The processes that work in a folder."""
    found = []
    for process in pathlib.Path("/proc").glob("[0-9]*/cwd"):
        try:
            found += [process.parent.name] if os.readlink(process) == str(folder) else []
        except OSError:
            pass
    return found


@pytest.mark.skipif(not pathlib.Path("/proc/self/cwd").exists(), reason="looks for processes in /proc")
@pytest.mark.parametrize("number", [signal.SIGTERM, signal.SIGINT])
@pytest.mark.parametrize("names", [["image.fits"], ["0.fits", "1.fits", "2.fits"]])
def test_a_signal_leaves_nothing(here, names, number, monkeypatch):
    monkeypatch.chdir(TOP)
    words = [sys.executable, "-m", "maxdetect._cli", *names, "--workers", "2"]
    heard = {"preexec_fn": lambda: signal.signal(signal.SIGINT, signal.SIG_DFL)}
    with subprocess.Popen(words, cwd=here, env=ENVIRONMENT, stderr=subprocess.PIPE, text=True, **heard) as running:
        until = time.monotonic() + 300
        while len(left(here)) < 3 and running.poll() is None and time.monotonic() < until:
            # To look through all processes takes time of its own.
            time.sleep(0.04)
        time.sleep(0.1)
        running.send_signal(number)
        told = running.communicate(timeout=300)[1]
    # Behind the last catalogue a signal ends Python as it ends any program.
    done = all((here / name.replace(".fits", ".cat.fits")).exists() for name in names)
    assert running.returncode in (128 + number, 0, *([-number] if done else [])) and told == ""
    until = time.monotonic() + 300
    while left(here) and time.monotonic() < until:
        time.sleep(0.05)
    assert not left(here) and not list(here.glob(".maxdetect*"))


def test_a_full_disk_is_told_in_one_line(here, monkeypatch, capsys):
    def full(*given, **more):
        raise OSError(28, "No space left on device")

    monkeypatch.setattr(cataloguing.tables.fitstables, "write", full)
    assert cli.main(["0.fits", "1.fits", "--workers", "2"]) == 2
    lines = capsys.readouterr().err.splitlines()
    assert len(lines) == 2 and all("No space left on device" in line for line in lines)
    assert not list(here.glob("*.cat.fits")) and not list(here.glob(".maxdetect*"))
