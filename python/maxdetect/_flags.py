"""The bits of the column FLAGS, and what they mean."""

__all__ = ["BEYOND", "CROWDED", "CUT", "EDGE", "FLAGS", "SATURATED", "SPLIT", "STRUCK", "UNDEFINED", "WIDE"]

# The bits of the column FLAGS: Source Extractor's, which SCAMP and PSFEx know.
CROWDED = 1
SPLIT = 2
SATURATED = 4
EDGE = 8
BEYOND = 16
UNDEFINED = 32
CUT = 64
STRUCK = 128
WIDE = 256
FLAGS = {
    CROWDED: "its Kron ellipse holds pixels of other sources, or undefined ones",
    SPLIT: "was split from a neighbour",
    SATURATED: "has a saturated pixel",
    EDGE: "touches the image's edge",
    BEYOND: "its Kron ellipse reaches beyond the image",
    UNDEFINED: "touches an undefined pixel",
    CUT: "was cut by a window",
    STRUCK: "touches a pixel that a cosmic ray has hit",
    WIDE: "is wide and faint, found in the means of blocks",
}
