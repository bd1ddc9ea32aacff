"""Cases at the limits of document 01 that the other parts of a list lack; tests/limits.py tells which there are."""
from .build import VARIABLE, balanced
from .frames import END, read, written
from .tables import frame


def of_frames():
    """A tree of 513 nodes, which is refused for that alone."""
    words = balanced([VARIABLE] * 257)
    return [written(words), read(frame(words) + END)]
