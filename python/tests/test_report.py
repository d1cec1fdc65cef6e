"""The page of a catalogue."""
import base64
import json
import re
import shutil
import subprocess
import zlib

import numpy
import pytest
from astropy.table import Table

pytest.importorskip("sep", reason="the package wants SEP (Debian: python3-sep)")

from maxdetect import _report as report  # noqa: E402

BROWSER = shutil.which("chromium")
# Clicks on the middle of the image, once the page is there.
CLICK = """<script>
const waiting = setInterval(() => {
  if (!document.body.dataset.ready) return;
  clearInterval(waiting);
  const box = view.getBoundingClientRect(), [sx, sy] = toScreen(x[0], y[0]);
  for (const name of ["pointerdown", "pointerup"])
    view.dispatchEvent(new PointerEvent(name, { clientX: box.left + sx, clientY: box.top + sy, bubbles: true }));
  document.body.dataset.shades = String(new Set(pen.getImageData(0, 0, view.width, view.height).data).size);
}, 20);
</script></body>"""


def scene(count, height=60, width=90):
    rng = numpy.random.default_rng(3)
    image = rng.normal(100, 5, (height, width)).astype("f4")
    image[0, 0] = numpy.nan
    table = Table({"NUMBER": numpy.arange(1, count + 1, dtype="i4")})
    table["X"], table["Y"] = rng.uniform(1, width, count), rng.uniform(1, height, count)
    table["A"], table["B"], table["THETA"] = (numpy.full(count, it, dtype="f4") for it in (4.0, 2.0, 30.0))
    table["FLUX_AUTO"] = rng.lognormal(7, 1, count).astype("f4")
    table["FLAGS"] = rng.integers(0, 3, count).astype("i4")
    table["EXTENSION"] = [f"</script>{number % 2}" for number in range(count)]
    table["FLUX_APER"] = numpy.zeros((count, 2))
    table.meta.update(IMAGE="<b>field</b>.fits", SIGMA=5.0, GROWTH=True)
    return image, table


def told(text):
    return json.loads(re.search(r'id="data">(.*?)</script>', text, re.S)[1])


def decoded(png):
    data = base64.b64decode(png.partition(",")[2])
    width, height = (int.from_bytes(data[at : at + 4], "big") for at in (16, 20))
    length = int.from_bytes(data[33:37], "big")
    return numpy.frombuffer(zlib.decompress(data[41 : 41 + length]), "u1").reshape(height, width + 1)[::-1, 1:]


def test_what_the_page_has():
    image, table = scene(7)
    found = told(report.page(image, table, report.Skies(numpy.array([[1.0, 2.0]]), numpy.array([[3.0]]))))
    columns = {column["name"]: column for column in found["columns"]}
    assert "FLUX_APER" not in columns and columns["EXTENSION"]["values"] == list(table["EXTENSION"])
    for name in ("NUMBER", "X", "FLUX_AUTO", "FLAGS"):
        values = numpy.frombuffer(base64.b64decode(columns[name]["values"]), "<" + columns[name]["kind"])
        assert numpy.array_equal(values, table[name]), name
    assert [each[:2] for each in found["assumed"]] == [
        ["IMAGE", "<b>field</b>.fits"],
        ["SIGMA", "5"],
        ["GROWTH", "True"],
    ]
    assert [(each["low"], each["high"]) for each in found["maps"]] == [(1, 2), (3, 3)]


def test_the_image_is_told_to_a_small_part_of_the_noise():
    image, table = scene(1)
    found = told(report.page(image, table, report.Skies()))["image"]
    grey = decoded(found["png"])
    assert grey[0, 0] == 0 and (grey.reshape(-1)[1:] > 0).all()
    values = numpy.sinh(found["least"] + (grey - 1.0) / 254 * (found["most"] - found["least"]))
    seen = numpy.isfinite(image)
    assert numpy.abs(found["sky"] + found["sigma"] * values - image)[seen].max() < 0.15 * found["sigma"]


@pytest.mark.parametrize("sides", [(1, 1), (3, 5000), (2500, 40)])
def test_images_of_any_sides(tmp_path, sides):
    _, table = scene(3)
    for value in (numpy.nan, 7.0):
        report.write(numpy.full(sides, value, dtype="f4"), table, tmp_path / "page.html")
    assert max(decoded(told((tmp_path / "page.html").read_text())["image"]["png"]).shape) <= report.SIDE


def test_a_catalogue_without_a_source(tmp_path):
    image, table = scene(0)
    report.write(image, table, tmp_path / "page.html")
    assert told((tmp_path / "page.html").read_text())["sources"] == 0


def shown(folder, page, *words):
    """What a browser makes of a page."""
    (folder / "page.html").write_text(page)
    done = subprocess.run(
        [BROWSER, "--headless", "--no-sandbox", "--disable-gpu", f"--user-data-dir={folder}/user", *words, "page.html"],
        cwd=folder,
        stdin=subprocess.DEVNULL,
        capture_output=True,
        text=True,
        timeout=300,
        check=True,
    )
    return done.stdout


@pytest.mark.skipif(BROWSER is None, reason="a page is tried with chromium (Debian: chromium)")
@pytest.mark.parametrize("count, side", [(3, 200), (35000, 2000)])
def test_a_click_shows_the_source(tmp_path, count, side):
    image, table = scene(count, side, side)
    page = report.page(image, table, report.Skies())
    text = shown(tmp_path, page.replace("</body>", CLICK), "--virtual-time-budget=20000", "--dump-dom")
    row = re.search(r'<div id="row">(.*?)</div>', text, re.S)[1]
    assert re.search(r"<td>NUMBER</td><td>\d+</td>", row) and "<td>FLUX_AUTO</td>" in row
    assert "&lt;b&gt;field&lt;/b&gt;.fits</h1>" in text and "<td><b>" not in text
    assert int(re.search(r'data-shades="(\d+)"', text)[1]) > 20
    assert re.search(r'data-ready="[\d.]+"', text)


@pytest.mark.skipif(BROWSER is None, reason="a page is tried with chromium (Debian: chromium)")
def test_a_page_without_a_source_opens(tmp_path):
    image, table = scene(0)
    assert "0 of 0" in shown(
        tmp_path, report.page(image, table, report.Skies()), "--virtual-time-budget=20000", "--dump-dom"
    )
