"""Headers that can't be believed: one line within a second, whatever stands in the file."""
import os
import resource
import time

import numpy
import pytest
from astropy.io import fits

import mutated
from maxdetect import _cataloguing as cataloguing, _cli as cli, _headers as headers

FILES = mutated.corpus()


def with_card(content, keyword, value, nth=0):
    """The bytes with another value in a card, of those with this keyword the nth."""
    cards = mutated.card_places(content)
    named = [number for number, at in enumerate(cards) if content[at : at + 8].rstrip() == keyword.encode()]
    return mutated.changed(content, [("value", named[nth], value)])


# A file, a card in it, what it says, and what is told.
HOSTILE = [
    ("floats", "NAXIS", "1000000", "HDU 0: NAXIS isn't a whole number from 0 to 999: 1000000"),
    ("floats in gz", "NAXIS", "1000000", "HDU 0: NAXIS isn't a whole number from 0 to 999: 1000000"),
    ("shorts in bz2", "NAXIS2", "-48", "HDU 0: NAXIS2 isn't a whole number from 0 on: -48"),
    ("shorts in bz2", "NAXIS2", "2147483647", "HDU 0: the file ends within its data, 274877906816 bytes by its header"),
    (
        "floats in gz",
        "NAXIS2",
        "999999999999",
        "HDU 0: the file ends within its data, 255999999999744 bytes by its header",
    ),
    ("floats", "NAXIS1", "-1", "HDU 0: NAXIS1 isn't a whole number from 0 on: -1"),
    ("floats", "NAXIS1", "(1, 2)", "HDU 0: NAXIS1 isn't a whole number from 0 on: (1+2j)"),
    ("floats", "NAXIS1", "64.5", "HDU 0: NAXIS1 isn't a whole number from 0 on: 64.5"),
    ("floats", "NAXIS2", "1,5", "HDU 0: NAXIS2 can't be read: 1,5"),
    ("floats", "NAXIS2", "4800000", "HDU 0: the file ends within its data, 1228800000 bytes by its header"),
    ("floats", "BITPIX", "99999", "HDU 0: BITPIX is none of 8, 16, 32, 64, -32, -64: 99999"),
    ("scaled", "PCOUNT", "-100", "HDU 1: PCOUNT isn't a whole number from 0 on: -100"),
    ("scaled", "GCOUNT", "0", "HDU 1: GCOUNT isn't a whole number from 1 on: 0"),
    ("scaled", "NAXIS1", "-64", "HDU 1: NAXIS1 isn't a whole number from 0 on: -64"),
    ("scaled", "BZERO", "'abc", "HDU 1: BZERO can't be read: 'abc"),
    ("several", "TFIELDS", "1000", "HDU 1: TFIELDS isn't a whole number from 0 to 999: 1000"),
    ("RICE_1", "ZNAXIS1", "(1, 2)", "HDU 1: ZNAXIS1 isn't a whole number from 0 on: (1+2j)"),
    ("RICE_1", "ZBITPIX", "1" * 60, f"HDU 1: ZBITPIX is none of 8, 16, 32, 64, -32, -64: {'1' * 60}"),
    ("RICE_1", "ZNAXIS2", "48000000", "HDU 1: a compressed image of 48000000 tiles, and 48 rows for them"),
    ("RICE_1", "ZTILE1", "0", "HDU 1: ZTILE1 isn't a whole number from 1 on: 0"),
    ("scaled", "BSCALE", "0", "bad.fits[1]: BSCALE is 0"),
    ("scaled", "BZERO", "'abc'", "bad.fits[1]: BZERO isn't a number: abc"),
    ("scaled", "BLANK", "1.5", "bad.fits[1]: BLANK isn't a whole number: 1.5"),
    ("floats", "GAIN", "'abc", "bad.fits[PRIMARY]: GAIN can't be read"),
    ("floats", "GAIN", "1,5", "bad.fits[PRIMARY]: GAIN can't be read"),
    ("floats", "GAIN", "'2.5'", "bad.fits[PRIMARY]: GAIN isn't a number: 2.5"),
    ("floats", "SATURATE", "'many'", "bad.fits[PRIMARY]: SATURATE isn't a number: many"),
    ("floats", "BUNIT", "1,5", "bad.fits[PRIMARY]: BUNIT can't be read"),
    ("floats", "BUNIT", "5", "bad.fits[PRIMARY]: BUNIT isn't a text: 5"),
    ("several", "EXTNAME", "'abc", "EXTNAME can't be read: 'abc"),
]


def one_line(capsys, *words):
    """The line that is told, or none where all is well; within a second, and with no more memory than it takes."""
    before, start, peak = (
        sorted(os.listdir(".")),
        time.process_time(),
        resource.getrusage(resource.RUSAGE_SELF).ru_maxrss,
    )
    status = cli.main([*words, "-o", "cat.fits", "--map", "map.fits"])
    assert time.process_time() - start < 1
    assert resource.getrusage(resource.RUSAGE_SELF).ru_maxrss - peak < 100_000
    out, err = capsys.readouterr()
    if status == 0:
        return None
    assert status == 2 and out == "" and err.startswith("maxcat: ") and err.count("\n") == 1
    assert sorted(os.listdir(".")) == before
    return err.rstrip("\n")


@pytest.mark.parametrize("name, keyword, value, text", HOSTILE, ids=[" ".join(case[:3])[:40] for case in HOSTILE])
def test_a_card_that_can_not_be(tmp_path, monkeypatch, capsys, name, keyword, value, text):
    monkeypatch.chdir(tmp_path)
    pack, content = FILES[name]
    nth = 1 if name in ("scaled", "RICE_1") and keyword in ("BITPIX", "NAXIS") else 0
    (tmp_path / "bad.fits").write_bytes(pack(with_card(content, keyword, value, nth)))
    told = one_line(capsys, "bad.fits")
    assert told.startswith("maxcat: bad.fits") and told.endswith(text)


def test_a_card_that_stands_twice(tmp_path, monkeypatch, capsys):
    monkeypatch.chdir(tmp_path)
    content = FILES["RICE_1"][1]
    place = content.index(b"ZNAXIS  =")
    twice = content[: place + 80] + b"ZNAXIS  = 1000000000".ljust(80) + content[place + 160 :]
    (tmp_path / "bad.fits").write_bytes(twice)
    assert one_line(capsys, "bad.fits").endswith("HDU 1: ZNAXIS stands twice, with 2 and 1000000000")


@pytest.mark.parametrize("keyword, option", [("GAIN", "--gain"), ("SATURATE", "--saturation")])
def test_an_option_goes_before_a_card(tmp_path, monkeypatch, capsys, keyword, option):
    monkeypatch.chdir(tmp_path)
    (tmp_path / "bad.fits").write_bytes(with_card(FILES["floats"][1], keyword, "1,5"))
    assert one_line(capsys, "bad.fits", option, "2") is None


def damaged(name):
    """A file that is broken behind its headers."""
    pack, content = FILES["shorts in gz"]
    if name == "a broken deflate stream":
        return pack(content)[:900] + bytes(200) + pack(content)[1100:]
    if name == "another byte in a deflate stream":
        return pack(content[:6000] + b"x" + content[6001:])[:-8] + pack(content)[-8:]
    if name == "a tile of HCOMPRESS that says it is wider":
        content = FILES["HCOMPRESS_1"][1]
        at = content.index(b"\xdd\x99", 8640) + 9
        return content[:at] + bytes([content[at] + 50]) + content[at + 1 :]
    if name == "a line of PLIO that says it is longer":
        content = FILES["PLIO_1"][1]
        at = content.index(bytes.fromhex("00000007ff9c"), 5760)
        return content[: at + 6] + b"\x7f" + content[at + 7 :]
    if name == "a broken gzip tile":
        content = FILES["GZIP_1"][1]
        at = content.index(b"\x1f\x8b", 8640)
        return content[: at + 12] + bytes([content[at + 12] ^ 64]) + content[at + 13 :]
    content = FILES["RICE_1"][1]
    if name == "a tile beyond the heap":
        at = len(content) - 5760 + 2880
        return content[:at] + b"\x20" * 8 + content[at + 8 :]
    if name == "a tile that isn't RICE":
        return content[:-2700] + b"\xff" * 2700
    return with_card(content, "TFORM1", "'1PZ(54)'")


@pytest.mark.parametrize(
    "name",
    [
        "a broken deflate stream",
        "another byte in a deflate stream",
        "a broken gzip tile",
        "a line of PLIO that says it is longer",
        "a tile of HCOMPRESS that says it is wider",
        "a tile beyond the heap",
        "a tile that isn't RICE",
        "a form that isn't",
    ],
)
def test_a_bad_file_among_good_ones(tmp_path, monkeypatch, capsys, name):
    monkeypatch.chdir(tmp_path)
    (tmp_path / "bad.fits").write_bytes(damaged(name))
    for good in ("first", "last"):
        (tmp_path / f"{good}.fits").write_bytes(FILES["floats"][1])
    for workers in ("1", "3"):
        assert cli.main(["first.fits", "bad.fits", "last.fits", "--workers", workers]) == 2
        out, err = capsys.readouterr()
        assert [line.split()[-1] for line in out.splitlines()] == ["first.cat.fits", "last.cat.fits"]
        assert err.startswith("maxcat: bad.fits") and err.count("\n") == 1
        assert sorted(os.listdir(".")) == [*("bad.fits", "first.cat.fits", "first.fits", "last.cat.fits", "last.fits")]


@pytest.mark.parametrize("fault", [ZeroDivisionError("so"), MemoryError(), KeyError("x"), RecursionError("deep")])
@pytest.mark.parametrize("workers", ["1", "3"])
def test_whatever_comes_in_the_way_of_an_image(tmp_path, monkeypatch, capsys, fault, workers):
    monkeypatch.chdir(tmp_path)
    for name in ("a", "b"):
        (tmp_path / f"{name}.fits").write_bytes(FILES["floats"][1])

    def failing(field, *given, **more):
        if field.plane.path == "a.fits":
            raise fault
        return sources(field, *given, **more)

    sources = cataloguing.detection.sources
    monkeypatch.setattr(cataloguing.detection, "sources", failing)
    assert cli.main(["a.fits", "b.fits", "--workers", workers]) == 2
    out, err = capsys.readouterr()
    assert out.endswith("b.cat.fits\n") and out.count("\n") == 1
    assert err.startswith("maxcat: a.fits: ") and err.count("\n") == 1
    assert ("memory is wanted" if isinstance(fault, MemoryError) else type(fault).__name__) in err
    monkeypatch.setattr(
        cataloguing.detection, "sources", lambda *given, **more: (_ for _ in ()).throw(KeyboardInterrupt())
    )
    assert cli.main(["a.fits", "b.fits", "--workers", workers]) == 130


def test_no_more_is_read_than_the_header(tmp_path):
    pixels = numpy.random.default_rng(1).integers(0, 250, (2000, 2000)).astype("u1")
    (tmp_path / "a.fits.gz").write_bytes(FILES["floats in gz"][0](mutated._bytes(fits.PrimaryHDU(pixels))))
    path = str(tmp_path / "a.fits.gz")
    with open(path, "r+b") as file:
        file.truncate(100_000)
    assert next(headers.walked(path)) == 0
