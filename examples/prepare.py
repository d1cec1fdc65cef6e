"""Makes an image of whole numbers, as maxdetect reads it, from any image that astropy reads: see --help."""
import pathlib
import sys

sys.path.insert(0, str(pathlib.Path(__file__).resolve().parent.parent / "python"))
from maxdetect import _prepare as prepare  # noqa: E402

sys.exit(prepare.main())
