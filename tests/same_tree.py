"""Compares what `maxdetect tree` writes of one large star field for several numbers of strips and workers, and with a
union-find in C++.

usage: python3 tests/same_tree.py MAXDETECT [SIDE]      (MAXDETECT is the built program; the side is 1024 if left out)

Without g++ the union-find is skipped. Exit status 1 where two outputs differ.
"""
import hashlib
import pathlib
import shutil
import subprocess
import sys
import tempfile

TOP = pathlib.Path(__file__).resolve().parent.parent
CREWS = [(1, 1), (2, 1), (7, 1), (64, 1), (2, 2), (7, 4), (64, 64)]


def digest(command, image):
    with open(image, "rb") as source:
        output = subprocess.run(
            command, stdin=source, stdout=subprocess.PIPE, stderr=subprocess.DEVNULL, check=True
        ).stdout
    return hashlib.sha256(output).hexdigest()


def main():
    maxdetect = pathlib.Path(sys.argv[1]).resolve()
    side = sys.argv[2] if len(sys.argv) > 2 else "1024"
    with tempfile.TemporaryDirectory() as name:
        image, reference = pathlib.Path(name) / "image.fits", pathlib.Path(name) / "reference"
        with open(image, "wb") as file:
            subprocess.run([sys.executable, TOP / "examples" / "star_field.py", side, side], stdout=file, check=True)
        if shutil.which("g++"):
            subprocess.run(["g++", "-O2", "-o", reference, TOP / "bench" / "reference.cpp"], check=True)
        else:
            print("skipped: the union-find wants g++")
        different = 0
        for connect in ("4", "8"):
            digests = {
                digest(
                    [maxdetect, "tree", "--connect", connect, "--strips", str(strips), "--workers", str(workers)], image
                )
                for strips, workers in CREWS
            }
            if reference.exists():
                digests.add(digest([reference, connect], image))
            print(f"connectivity {connect}: {'one output' if len(digests) == 1 else 'the outputs differ'}")
            different += len(digests) != 1
    return 1 if different else 0


sys.exit(main())
