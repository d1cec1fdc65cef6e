"""Tiles of compressed images that are seen to be broken before they are unpacked."""
import gzip

import numpy
import pytest
from astropy.io import fits

from maxdetect import Mistake, _compressed as compressed, _images as images

# Without the time, since all processes of the tests have to give a test the same name.
STREAM = gzip.compress(bytes(range(200)), mtime=0)


def hcompress(height, width, rest=15):
    """The head of an HCOMPRESS tile that says that it has these sides."""
    return b"\xdd\x99" + height.to_bytes(4, "big", signed=True) + width.to_bytes(4, "big", signed=True) + bytes(rest)


@pytest.mark.parametrize("tile", [b"", STREAM], ids=["nothing", "a stream"])
def test_whole_streams_are_taken(tile):
    compressed._check_gzip(tile, 200)


@pytest.mark.parametrize(
    "tile", [STREAM[:-9], STREAM[:20] + b"x" + STREAM[21:], b"no stream"], ids=["cut", "changed", "none"]
)
def test_broken_streams_are_not(tile):
    with pytest.raises(ValueError, match="^a compressed tile is broken"):
        compressed._check_gzip(tile, 200)


@pytest.mark.parametrize("tile", [b"", hcompress(4, 5), hcompress(20, 1, 99)])
def test_tiles_of_the_size_that_they_say(tile):
    compressed._check_hcompress(tile, 20)


@pytest.mark.parametrize("tile", [hcompress(4, 6), hcompress(-4, -5), hcompress(4, 5, 14), b"\xdd\x98" + bytes(30)])
def test_tiles_of_another_size(tile):
    with pytest.raises(ValueError, match="^a compressed tile is broken$"):
        compressed._check_hcompress(tile, 20)


@pytest.mark.parametrize("words", [[], [0, 0, 5, 0, 0], [0, 7, -100, 7, 0, 0, 0]])
def test_lines_of_plio_that_end_where_they_say(words):
    compressed._check_plio(words)


@pytest.mark.parametrize("words", [[1, 2, 3], [0, 0, 9, 0, 0], [0, 7, -100, 8, 0, 0, 0], [0, 9, 0, 7, 0, 0, 0]])
def test_lines_of_plio_that_do_not(words):
    with pytest.raises(ValueError, match="^a compressed tile is broken$"):
        compressed._check_plio(words)


@pytest.fixture(scope="module")
def dithered(tmp_path_factory):
    """A file with a dithered image in Rice blocks."""
    path, image = tmp_path_factory.mktemp("dithered") / "image.fits", numpy.random.default_rng(1).normal(0, 9, (20, 30))
    fits.CompImageHDU(image.astype("f4"), compression_type="RICE_1", quantize_method=2).writeto(path)
    assert numpy.isfinite(images.opened(path).window(slice(None))).all()
    return path


@pytest.mark.parametrize(
    "card, value, text",
    [
        *(("ZVAL1", value, f"ZVAL1 isn't a number from 1 on: {value}") for value in (0, -32)),
        *(
            ("ZDITHER0", value, f"isn't a number from 1 to 10000: {value}")
            for value in (0, 10001, -(2**31), 2**31 - 1)
        ),
        *((card, False, f"{card} isn't a number: False") for card in ("ZVAL1", "ZDITHER0")),
    ],
)
def test_settings_that_the_decompressor_does_not_survive(dithered, tmp_path, card, value, text):
    path = tmp_path / "image.fits"
    with fits.open(dithered, disable_image_compression=True) as hdus:
        hdus[1].header[card] = value
        hdus.writeto(path)
    with pytest.raises(Mistake, match=text):
        images.opened(path).window(slice(None))
