"""A plain model of the programs: what they answer to words and bytes, computed by the definitions alone.

Nothing here is fast, and nothing is shared with the programs, so it serves for images of some dozens of pixels, as a
check from outside: `tests/compare.py` runs the programs beside it. `answer(words, data)` is for maxdetect,
`wide_answer(words, data)` for maxwide, and `session(words, data, tables)` for maxsurvey.
"""
from .programs import Answer, answer, session
from .tiles import wide_answer

__all__ = ["Answer", "answer", "session", "wide_answer"]
