"""Pages of the package's public docstrings: `python3 -m sphinx docs/sphinx OUT`. Nothing is fetched from elsewhere."""
import pathlib
import sys

sys.path.insert(0, str(pathlib.Path(__file__).resolve().parents[2] / "python"))
import maxdetect  # noqa: E402

project = "Maxdetect"
author = "Bujdorim maintainers"
version = release = maxdetect.__version__
extensions = ["sphinx.ext.autodoc", "numpydoc"]
# Methods stand behind their class; lists of them would want pages of their own.
numpydoc_show_class_members = False
autodoc_typehints = "none"
html_theme = "alabaster"
html_theme_options = {"description": "Sources of astronomical images by their max-trees", "page_width": "70em"}
html_copy_source = html_show_sourcelink = html_show_copyright = False
