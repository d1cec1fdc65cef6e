"""Reads what `maxdetect filter`, `detect` and `measure` and `maxwide tile` write with other FITS readers, and compares
each pixel and cell; what `maxwide join` writes of tiles is compared with the whole.

usage: /usr/bin/python3 tests/interop.py MAXDETECT [MAXWIDE]      (the built programs)

It wants astropy; `fitsverify` and scikit-image are used where they are there. In Debian these are the packages
python3-astropy, fitsverify and python3-skimage. A reader's warning is a failure. Without astropy it says so and ends
well.
"""
import io
import pathlib
import shutil
import subprocess
import sys
import tempfile
import warnings

TOP = pathlib.Path(__file__).resolve().parent.parent
SIDE = 1024

try:
    import numpy
    from astropy.io import fits
except ImportError:
    print("skipped: tests/interop.py wants astropy (Debian: python3-astropy)")
    sys.exit(0)

try:
    from skimage.morphology import area_opening
except ImportError:
    area_opening = None

warnings.simplefilter("error")


def fail(what):
    sys.exit(f"interop: {what}")


def image_file(numbers, bitpix=8):
    """A FITS file of one image of unsigned bytes, as the standard describes it."""
    height, width = len(numbers), len(numbers[0])
    cards = [("SIMPLE", "T"), ("BITPIX", bitpix), ("NAXIS", 2), ("NAXIS1", width), ("NAXIS2", height)]
    text = "".join(f"{keyword:<8}= {value:>20}".ljust(80) for keyword, value in cards) + "END".ljust(80)
    data = bytes(number for row in numbers for number in row)
    return text.ljust(2880).encode("ascii") + data + bytes(-len(data) % 2880)


def run(program, words, file):
    result = subprocess.run([program, *words], input=file, capture_output=True)
    if result.returncode != 0:
        fail(f"{' '.join(words)} ended with {result.returncode}: {result.stderr.decode()}")
    return result.stdout


def verified(folder, name, output):
    """The path of the output as a file, which fitsverify has nothing to say against."""
    path = folder / name
    path.write_bytes(output)
    if shutil.which("fitsverify"):
        result = subprocess.run(["fitsverify", path], capture_output=True, text=True)
        if "found 0 warning(s) and 0 error(s)" not in result.stdout:
            fail(f"fitsverify on {name}:\n{result.stdout}")
    return path


def filtered(folder, name, output):
    """The pixels of a filtered image, as astropy reads them and as they stand in the file."""
    with fits.open(verified(folder, name, output)) as hdus:
        hdus.verify("exception")
        if len(hdus) != 1 or hdus[0].header["BITPIX"] != 64:
            fail(f"{name} isn't one image of BITPIX 64")
        header, pixels = hdus[0].header.copy(), hdus[0]._get_raw_data(hdus[0].shape, ">i8", hdus[0]._data_offset).copy()
    if header["BLANK"] != -(2**63):
        fail(f"{name} has another BLANK")
    start = len(output) - (pixels.nbytes + -pixels.nbytes % 2880)
    if output[start : start + pixels.nbytes] != pixels.tobytes():
        fail(f"{name}: astropy reads other pixels than stand there")
    return pixels


def small_filters(program, folder):
    ramp = image_file([[0, 1, 3, 2, 0]])
    wanted = {"min": [0, 0, 0, 0, 0], "max": [0, 1, 2, 2, 0], "direct": [0, 0, 2, 2, 0], "subtractive": [0, 0, 1, 1, 0]}
    for rule, pixels in wanted.items():
        output = run(program, ["filter", "--rule", rule, "--min-area", "2", "--max-area", "2"], ramp)
        if filtered(folder, f"{rule}.fits", output).tolist() != [pixels]:
            fail(f"filter --rule {rule} gives other pixels")
    corner = image_file([[1, 1], [1, 0]])
    for fill, pixels in ((750, [[1, 1], [1, 0]]), (751, [[0, 0], [0, 0]])):
        output = run(program, ["filter", "--rule", "direct", "--min-fill", str(fill)], corner)
        if filtered(folder, f"fill{fill}.fits", output).tolist() != pixels:
            fail(f"filter --min-fill {fill} gives other pixels")


def star_filter(program, folder, stars):
    """Taking out what is small is an opening by area; where scikit-image is there, it has to be its opening."""
    pixels = filtered(
        folder, "opened.fits", run(program, ["filter", "--rule", "direct", "--min-area", "20", "--connect", "8"], stars)
    )
    (folder / "stars.fits").write_bytes(stars)
    with fits.open(folder / "stars.fits", do_not_scale_image_data=True) as hdus:
        stored, blank, zero = hdus[0].data.astype("i8"), hdus[0].header["BLANK"], hdus[0].header["BZERO"]
    defined = stored != blank
    if not ((pixels == -(2**63)) == ~defined).all():
        fail("other pixels are undefined than in the image")
    if area_opening is None:
        print("skipped: the comparison with scikit-image's area opening (Debian: python3-skimage)")
        return
    values = numpy.where(defined, stored + int(zero), 0)
    opened = area_opening(values, area_threshold=20, connectivity=2)
    if not (opened == pixels)[defined].all():
        fail("filter differs from an opening by area")


def detection(program, folder, stars):
    words = ["detect", "--threshold", "60", "--min-area", "5", "--mesh", "64", "--connect", "8"]
    with fits.open(verified(folder, "sources.fits", run(program, words, stars))) as hdus:
        hdus.verify("exception")
        if [hdu.name for hdu in hdus] != ["PRIMARY", "SEGMENT", "SOURCES"]:
            fail("detect writes other HDUs")
        segments, sources = hdus["SEGMENT"].data, hdus["SOURCES"].data
        if segments.shape != (SIDE, SIDE) or len(sources) == 0 or segments.max() != len(sources):
            fail("the map and the catalogue have other sizes")
        rows, columns = numpy.nonzero(segments)
        numbers = segments[rows, columns]
        for place, source in enumerate(sources, start=1):
            here = numbers == place
            x, y = columns[here] + 1, rows[here] + 1
            seen = (place, here.sum(), x.min(), x.max(), y.min(), y.max())
            told = tuple(int(source[name]) for name in ("NUMBER", "AREA", "XMIN", "XMAX", "YMIN", "YMAX"))
            if tuple(map(int, seen)) != told:
                fail(f"source {place} has {told} in the catalogue, and {seen} in the map")
            if not (
                1000 * told[2] <= source["XCEN"] <= 1000 * told[3]
                and 1000 * told[4] <= source["YCEN"] <= 1000 * told[5]
            ):
                fail(f"the centre of source {place} lies outside it")
        return len(sources)


def measurement(program, folder, bands):
    """The first 17 columns are those of `detect`, and the others are what the map's pixels have in the second band."""
    words = ["--threshold", "1100", "--min-area", "5", "--connect", "8"]
    with fits.open(verified(folder, "found.fits", run(program, ["detect", *words], bands))) as hdus:
        found = hdus["SOURCES"].data.copy()
    with fits.open(verified(folder, "bands.fits", bands), do_not_scale_image_data=True) as hdus:
        band, blank, zero = hdus["RED"].data.astype("i8"), hdus["RED"].header["BLANK"], int(hdus["RED"].header["BZERO"])
    with fits.open(
        verified(folder, "measured.fits", run(program, ["measure", "--values", "1", *words], bands))
    ) as hdus:
        hdus.verify("exception")
        segments, measured = hdus["SEGMENT"].data, hdus["SOURCES"].data
        if len(measured.names) != 24 or len(measured) == 0:
            fail("measure writes other columns, or no rows")
        if not all((found[name] == measured[name]).all() for name in found.names):
            fail("measure finds other sources than detect")
        for row in measured:
            pixels = band[segments == row["NUMBER"]]
            seen = pixels[pixels != blank] + zero
            least, greatest, mean = (seen.min(), seen.max(), 1000 * seen.sum() // len(seen)) if len(seen) else (0, 0, 0)
            wanted = (len(seen), len(pixels) - len(seen), seen.sum(), least, greatest, mean)
            told = tuple(int(row[name]) for name in ("SEEN", "MISSING", "VSUM", "VLOW", "VPEAK", "VMEAN"))
            if tuple(map(int, wanted)) != told:
                fail(f"source {row['NUMBER']} measures {told}, and its pixels {wanted}")
        return len(measured)


def cut(stars, left, top, width, height):
    """The file of a window of a field."""
    with fits.open(io.BytesIO(stars)) as file:
        window = fits.PrimaryHDU(file[0].data[top : top + height, left : left + width])
        bytes_ = io.BytesIO()
        window.writeto(bytes_)
    return bytes_.getvalue()


def tiles(maxwide, folder, stars):
    """Four windows of a field with a margin each, as tiles: their boxes, map and rows, and the whole that they give."""
    words = ["detect", "--threshold", "34", "--min-area", "5", "--mesh", "64", "--connect", "8"]
    half, margin, files = SIDE // 2, 192, []
    for left, top in ((half, half), (0, half), (half, 0), (0, 0)):
        x, y = max(left - margin, 0), max(top - margin, 0)
        width, height = min(left + half + margin, SIDE) - x, min(top + half + margin, SIDE) - y
        place = [x, y, width, height, "--core", left, top, half, half]
        place = ["--whole", SIDE, SIDE, "--window", *place]
        files.append(run(maxwide, ["tile", *map(str, place), *words], cut(stars, x, y, width, height)))
        with fits.open(verified(folder, "tile.fits", files[-1])) as file:
            boxes = [list(row) for row in file["TILE"].data]
            if boxes[:2] != [[1, SIDE, 1, SIDE], [x + 1, x + width, y + 1, y + height]] or len(boxes) != 3:
                fail(f"a tile has the boxes {boxes}")
            if (
                file["SEGMENT"].data.shape != (height, width)
                or not numpy.isin(file["SOURCES"].data["NUMBER"], file["SEGMENT"].data).all()
            ):
                fail("a tile's rows have other numbers than its map")
    if run(maxwide, ["join"], b"".join(files)) != run(maxwide, words, stars):
        fail("tiles that are joined aren't the whole")


def main():
    program = pathlib.Path(sys.argv[1]).resolve()
    field = [sys.executable, TOP / "examples" / "star_field.py"]
    stars = subprocess.run([*field, str(SIDE), str(SIDE)], capture_output=True, check=True).stdout
    bands = subprocess.run([*field, "512", "512", "1", "2"], capture_output=True, check=True).stdout
    if not shutil.which("fitsverify"):
        print("skipped: fitsverify (Debian: fitsverify)")
    with tempfile.TemporaryDirectory() as name:
        folder = pathlib.Path(name)
        small_filters(program, folder)
        star_filter(program, folder, stars)
        count = detection(program, folder, stars)
        measures = measurement(program, folder, bands)
        if len(sys.argv) > 2:
            tiles(pathlib.Path(sys.argv[2]).resolve(), folder, stars)
    print(
        f"interop: all outputs are read without a warning; {count} sources agree with the map, "
        f"{measures} with the second band"
    )


main()
