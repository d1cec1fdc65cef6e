"""`python -m maxdetect survey` exports a survey; `python -m maxdetect` with any other words is `maxcat`."""
import sys

from . import _cli as cli
from ._starting import ended_by_signals
from ._telling import told

if sys.argv[1:2] == ["survey"]:
    from . import _exporting as exporting

    with ended_by_signals():
        status = told("maxdetect survey", exporting.run, sys.argv[2:])
    sys.exit(status)
sys.exit(cli.main())
