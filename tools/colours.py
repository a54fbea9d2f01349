#!/usr/bin/env python3
"""Says how well the colours of `map` can be told apart: colours.py [least].

Of each colour in crates/dbpicture/src/colours.rt it prints the least distance to any other (CIE76: in Lab under D65) for normal,
deuteranope and protanope sight, and to which. Dichromats see as by Vienot and others (1999) or as by Machado and others (2009):
the lesser distance counts. It fails where one is below `least`.
"""
import re
import sys
from pathlib import Path

TREES = ["rank %d" % rank for rank in range(12)] + ["other trees"]
OTHERS = {"freelist": "#DBDBDB", "fixed": "#000000", "frame": "#BE0700", "ground": "#FFFFFF"}
LMS = ((17.8824, 43.5161, 4.11935), (3.45565, 27.1554, 3.86714), (0.0299566, 0.184309, 1.46709))
RGB = ((0.0809445, -0.1305044, 0.1167211), (-0.0102485, 0.0540193, -0.1136147), (-0.0003653, -0.0041216, 0.6935114))
MACHADO = {
    "deuteranope": ((0.367322, 0.860646, -0.227968), (0.280085, 0.672501, 0.047413), (-0.011820, 0.042940, 0.968881)),
    "protanope": ((0.152286, 1.052583, -0.204868), (0.114503, 0.786281, 0.099216), (-0.003882, -0.048116, 1.051998)),
}
SIGHTS = ("normal", "deuteranope", "protanope")


def times(matrix, v):
    return [sum(a * b for a, b in zip(row, v)) for row in matrix]


def linear(text):
    parts = [int(text[at : at + 2], 16) / 255 for at in (1, 3, 5)]
    return [p / 12.92 if p <= 0.04045 else ((p + 0.055) / 1.055) ** 2.4 for p in parts]


def lab(rgb):
    r, g, b = (min(max(p, 0), 1) for p in rgb)
    xyz = (
        (0.4124564 * r + 0.3575761 * g + 0.1804375 * b) / 0.95047,
        0.2126729 * r + 0.7151522 * g + 0.0721750 * b,
        (0.0193339 * r + 0.1191920 * g + 0.9503041 * b) / 1.08883,
    )
    x, y, z = (t ** (1 / 3) if t > 216 / 24389 else 24389 / 27 * t / 116 + 16 / 116 for t in xyz)
    return (116 * y - 16, 500 * (x - y), 200 * (y - z))


def seen(rgb, sight):
    """The colour in Lab, as each model has it for this sight."""
    if sight == "normal":
        return [lab(rgb)]
    long, middle, short = times(LMS, rgb)
    if sight == "protanope":
        long = 2.02344 * middle - 2.52581 * short
    else:
        middle = 0.494207 * long + 1.24827 * short
    return [lab(times(RGB, (long, middle, short))), lab(times(MACHADO[sight], rgb))]


def distance(one, other, sight):
    pairs = zip(seen(one, sight), seen(other, sight))
    return min(sum((a - b) ** 2 for a, b in zip(x, y)) ** 0.5 for x, y in pairs)


def colours():
    source = Path(__file__).parent.parent / "crates/dbpicture/src/colours.rt"
    texts = re.findall(r"\.[to]\d+\{fill:(#[0-9A-F]{6})\}", source.read_text())
    names = TREES + [name + ", overflow" for name in TREES]
    all = {name: linear(text) for name, text in zip(names, texts)}
    for name, text in OTHERS.items():
        all[name] = linear(text)
    # Half of the hatching is dark and half is white.
    all["hatching"] = [(p + 1) / 2 for p in linear("#444444")]
    return all


def main():
    least = float(sys.argv[1]) if len(sys.argv) > 1 else 0
    all = colours()
    worst = []
    for name, rgb in all.items():
        line = name.ljust(22)
        for sight in SIGHTS:
            near, other = min((distance(rgb, all[o], sight), o) for o in all if o != name)
            worst.append(near)
            line += "%s %5.1f %-22s" % (sight, near, other)
        print(line.rstrip())
    return 1 if min(worst) < least else 0


sys.exit(main())
