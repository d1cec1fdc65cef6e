"""The program's calls."""
import concurrent.futures
import doctest
import io
import os
import pickle
import re
import signal
import subprocess
import sys
import time

import numpy
import pytest
from astropy.io import fits

import maxdetect
from conftest import TOP
from maxdetect import _kernel as kernel
from maxdetect._columns import CATALOGUE

SMALL = numpy.arange(6).reshape(2, 3)
WORDS = {"min_area": 5, "mesh": 64, "connect": 8}


@pytest.fixture(scope="module")
def field():
    """A star field in 16 bits with BZERO and blank pixels, as bytes of a file."""
    script = TOP / "examples" / "star_field.py"
    return subprocess.run([sys.executable, script, "128", "128"], capture_output=True, check=True).stdout


def same_tables(one, other):
    return one.colnames == other.colnames and all((one[name] == other[name]).all() for name in one.colnames)


def test_docstrings():
    failed, tried = doctest.testmod(kernel)
    assert failed == 0 and tried > 10


def test_the_program_is_found(monkeypatch, tmp_path):
    assert maxdetect.find_program("elsewhere") == "elsewhere"
    monkeypatch.setenv("MAXDETECT", "named")
    assert maxdetect.find_program() == "named"
    (tmp_path / "maxdetect").write_text("#!/bin/sh\n")
    (tmp_path / "maxdetect").chmod(0o755)
    monkeypatch.delenv("MAXDETECT")
    monkeypatch.setenv("PATH", str(tmp_path))
    assert maxdetect.find_program() == str(tmp_path / "maxdetect")
    monkeypatch.setenv("MAXWIDE", "wide")
    assert maxdetect.find_program(name="maxwide") == "wide"


BUILD = """#!/bin/sh
trap 'echo ended > {folder}/ended; exit 143' TERM
# The command waits for it by then.
sleep 0.3
echo begun > {folder}/begun
while :; do sleep 0.1; done
"""
FINDS = """
import sys
from maxdetect import _kernel as kernel, _starting as starting
kernel.__file__ = "{folder}/python/maxdetect/_kernel.py"
with starting.ended_by_signals():
    kernel.find_program()
"""


@pytest.mark.parametrize("number", [signal.SIGINT, signal.SIGTERM])
def test_a_build_ends_with_the_command_that_began_it(tmp_path, number):
    (tmp_path / "scripts").mkdir()
    build = tmp_path / "scripts" / "build"
    build.write_text(BUILD.format(folder=tmp_path))
    build.chmod(0o755)
    around = {"PATH": "/bin:/usr/bin", "PYTHONPATH": str(TOP / "python")}
    # The tests may run where it is ignored, as in a shell's background.
    heard = {"preexec_fn": lambda: signal.signal(number, signal.SIG_DFL)}
    with subprocess.Popen([sys.executable, "-c", FINDS.format(folder=tmp_path)], env=around, **heard) as command:
        until = time.monotonic() + 300
        while not (tmp_path / "begun").exists() and time.monotonic() < until:
            time.sleep(0.05)
        command.send_signal(number)
        assert command.wait(300) == 128 + number
    assert (tmp_path / "ended").exists()


@pytest.mark.skipif(not os.path.exists("/dev/full"), reason="there is no full device")
def test_output_that_no_device_takes_is_a_fault(field):
    """Whether the device refuses the last piece or one in the midst, and whether it refuses or is gone."""
    program = maxdetect.find_program()
    for words in (["trial", "--seed", "1", "--width", "8", "--height", "8"], ["tree"], ["filter", "--rule", "direct"]):
        whole = subprocess.run([program, *words], input=field, capture_output=True, check=True).stdout
        with open("/dev/full", "wb") as full:
            done = subprocess.run([program, *words], input=field, stdout=full, stderr=subprocess.PIPE, check=False)
        assert (done.returncode, done.stderr) == (4, b"write fault\n")
        behind = f'"$@" | head -c {len(whole) // 2} | cksum'
        front = subprocess.run(["sh", "-c", behind, "-", program, *words], input=field, capture_output=True, check=True)
        half = subprocess.run(["cksum"], input=whole[: len(whole) // 2], capture_output=True, check=True).stdout
        assert front.stdout == half


def test_images_of_every_type_are_what_the_program_reads(field, tmp_path):
    image = maxdetect.load(io.BytesIO(field))
    blank = image.mask
    words = ["detect", "--threshold", "60", "--min-area", "5", "--mesh", "64", "--connect", "8"]
    output = subprocess.run([maxdetect.find_program(), *words], input=field, capture_output=True, check=True).stdout
    (tmp_path / "sources.fits").write_bytes(output)
    table, segments = maxdetect.read(tmp_path / "sources.fits")
    assert len(table) > 3 and blank.any()
    forms = [(image, {}), (image.astype("u2"), {}), (image.filled(0).astype("u4"), {"blank": 0})]
    forms += [
        (numpy.ma.MaskedArray(image.filled(0) + shift, mask=blank), {}) for shift in (2**32, -(2**32), 2**35)
    ]
    for form, options in forms:
        found = maxdetect.detect(form, 60, **WORDS, **options)
        assert same_tables(found[0], table) and found[1].dtype == "i4" and (found[1] == segments).all()
    kept = maxdetect.filter(image, "direct")
    assert (kept.mask == blank).all() and (kept == image).all()


def test_measure_of_the_image_itself(field):
    image = maxdetect.load(io.BytesIO(field))
    table, _ = maxdetect.measure(image, image, 60, **WORDS)
    assert (table["VSUM"] == table["FLUX"] + table["BASE"] * table["AREA"]).all()


@pytest.mark.parametrize("blank", [500.5, numpy.nan, "3"])
def test_a_blank_that_is_no_whole_number_is_refused(blank):
    with pytest.raises(TypeError, match="blank is a whole number"):
        maxdetect.detect(SMALL, 1, blank=blank)


def test_what_can_be_told_before_is_refused():
    with pytest.raises(TypeError):
        maxdetect.detect(SMALL.astype("f4"), 1)
    with pytest.raises(TypeError, match="threshold"):
        maxdetect.detect(SMALL, 1.5)
    with pytest.raises(ValueError):
        maxdetect.tree(SMALL[0])
    with pytest.raises(ValueError):
        maxdetect.tree(numpy.array([[0, 2**40]]))


def test_refusals_say_why():
    with pytest.raises(maxdetect.Refusal) as told:
        maxdetect.detect(SMALL, 2**40)
    assert (told.value.status, told.value.number, told.value.name) == (1, 3, "usage") and "threshold" in told.value.text
    with pytest.raises(maxdetect.Refusal) as told:
        maxdetect.tree(numpy.zeros((0, 3), dtype="i4"))
    assert (told.value.status, told.value.number, told.value.name) == (2, 11, "NoImage")


def test_images_without_sources_and_without_pixels():
    table, segments = maxdetect.detect(SMALL, 100)
    assert len(table) == 0 and table.colnames == list(CATALOGUE) and not segments.any()
    assert len(maxdetect.tree(numpy.ma.masked_all((2, 2), dtype="i4"))) == 0


@pytest.mark.parametrize("form", ["u1", "i1", "u2", "i2", "u4", "i4", "u8", "i8"])
def test_whole_numbers_are_loaded_as_they_stand(form, tmp_path):
    least, most = numpy.iinfo(form).min, numpy.iinfo(form).max
    image = numpy.array([[least, most, least + 1], [1, 2, most - 1]], dtype=form)
    fits.writeto(tmp_path / "image.fits", image)
    found = maxdetect.load(tmp_path / "image.fits")
    assert found.tolist() == image.tolist() and found.dtype.kind in "iu" and found.dtype.itemsize == 8


@pytest.mark.parametrize("zero", [-(2.0**63), 1.5, "x"])
def test_what_is_not_loaded(zero, tmp_path):
    hdu = fits.PrimaryHDU(numpy.array([[-(2**63), 2**63 - 1]], dtype="i8"))
    hdu.header["BSCALE"], hdu.header["BZERO"] = 1, zero
    hdu.writeto(tmp_path / "image.fits", output_verify="ignore")
    with pytest.raises(ValueError):
        maxdetect.load(tmp_path / "image.fits")


def test_a_refusal_can_be_pickled():
    refusal = pickle.loads(pickle.dumps(maxdetect.Refusal(2, 12, "ImageTooLarge", "too large")))
    assert (refusal.status, refusal.number, refusal.name, refusal.text) == (2, 12, "ImageTooLarge", "too large")
    assert str(refusal) == "ImageTooLarge: too large"


def wide(height):
    """Of one row too wide for the program, or of some that it takes."""
    return len(maxdetect.tree(numpy.zeros((height, 70000 if height == 1 else 5), dtype="u1")))


def test_a_refused_image_in_a_pool_is_told():
    with concurrent.futures.ProcessPoolExecutor(2) as pool:
        futures = [pool.submit(wide, height) for height in (2, 1, 3)]
        assert futures[0].result(60) == 1 and futures[2].result(60) == 1
        with pytest.raises(maxdetect.Refusal, match="ImageTooLarge"):
            futures[1].result(60)


def script(folder, text):
    path = folder / "program"
    path.write_text("#!/bin/sh\n" + text)
    path.chmod(0o755)
    return os.fspath(path)


def test_a_killed_program_is_told(tmp_path):
    with pytest.raises(maxdetect.Refusal, match="killed: signal 9") as told:
        maxdetect.detect(SMALL, 1, program=script(tmp_path, "kill -9 $$\n"))
    assert told.value.status is None


@pytest.mark.parametrize("call, sizes", [("detect", (0, 100, 2880, 4000, 8000, 12000)), ("filter", (0, 100, 2900))])
def test_a_truncated_output_is_told(tmp_path, call, sizes):
    for size in sizes:
        program = script(tmp_path, f'"{maxdetect.find_program()}" "$@" | head -c {size}\n')
        with pytest.raises(maxdetect.Refusal, match="truncated") as told:
            getattr(maxdetect, call)(SMALL, 1 if call == "detect" else "direct", program=program)
        assert told.value.status is None


def test_a_program_that_is_not_there_is_told(tmp_path):
    with pytest.raises(maxdetect.NoProgram, match="can't be run"):
        maxdetect.detect(SMALL, 1, program="/nowhere/maxdetect")
    with pytest.raises(FileNotFoundError):
        maxdetect.tree(SMALL, program=os.fspath(tmp_path / "none"))
    with pytest.raises(maxdetect.Refusal, match="status 7"):
        maxdetect.tree(SMALL, program=script(tmp_path, "echo what >&2; exit 7\n"))


@pytest.mark.parametrize("note", ["usage: word xx", "refused: 12", "refused: xx yy", ""])
@pytest.mark.parametrize("status", [1, 2, 9])
def test_other_words_of_a_program_are_told(tmp_path, status, note):
    with pytest.raises(maxdetect.Refusal, match=f"status {status}"):
        maxdetect.tree(SMALL, program=script(tmp_path, f"echo '{note}' >&2; exit {status}\n"))


def test_the_program_gets_large_pages_unless_the_caller_says_otherwise(monkeypatch, tmp_path):
    program = script(tmp_path, 'echo "it has $GLIBC_TUNABLES." >&2; exit 7\n')
    monkeypatch.delenv("GLIBC_TUNABLES", raising=False)
    large = numpy.arange(1 << 22, dtype="i4").reshape(2048, 2048)
    for image, kept in ((SMALL, kernel.SMALL_IMAGES), (large, kernel.LARGE_IMAGES)):
        with pytest.raises(maxdetect.Refusal, match=f"it has {re.escape(kernel.LARGE_PAGES)}:{re.escape(kept)}[.]"):
            maxdetect.tree(image, program=program)
    monkeypatch.setenv("GLIBC_TUNABLES", "")
    with pytest.raises(maxdetect.Refusal, match="it has [.]"):
        maxdetect.tree(SMALL, program=program)
    for name in ("maxdetect", "maxwide"):
        assert f"{kernel.LARGE_PAGES}:{kernel.LARGE_IMAGES}" in (TOP / name).read_text(encoding="utf-8")
    # The man page cuts the long word in two and lets a line end behind each colon.
    page = (TOP / "docs/maxdetect.1").read_text(encoding="utf-8").replace("\n.as tune ", "").replace("\\:", "")
    assert f"{kernel.LARGE_PAGES}:{kernel.LARGE_IMAGES}" in page


def test_other_outputs_of_a_program_are_told(tmp_path):
    maxdetect.save(numpy.zeros((3, 3), dtype="i4"), str(tmp_path / "other.fits"))
    for text in ("head -c 5760 /dev/zero", f"cat '{tmp_path}/other.fits'", f"cat '{tmp_path}/other.fits' /dev/null"):
        for call in (lambda program: maxdetect.detect(SMALL, 1, program=program), filtered):
            with pytest.raises(maxdetect.Refusal, match="truncated"):
                call(script(tmp_path, text + "\n"))


def filtered(program):
    return maxdetect.filter(SMALL, "direct", program=program)
