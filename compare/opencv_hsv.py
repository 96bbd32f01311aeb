#!/usr/bin/python3
"""The HSV rule of RULES 3 beside OpenCV's own 8-bit conversion, over all 2^24 pixels.

Needs Debian's python3-opencv (with numpy). The rule is worked out in whole numbers. A pixel is smaller than
another if its largest byte is, or that is equal and (B, G, R) comes first.
"""
import cv2
import numpy as np


def halves_up(numerator, denominator):
    """The fraction rounded to the nearest whole number, halves up."""
    return (2 * numerator + denominator) // (2 * denominator)


def by_the_rule(b, g, r):
    """Hue before the cap (0 to 180), saturation and value of int64 arrays."""
    v = np.maximum(np.maximum(b, g), r)
    d = v - np.minimum(np.minimum(b, g), r)
    s = np.where(v == 0, 0, halves_up(255 * d, np.maximum(v, 1)))
    one = np.maximum(d, 1)
    red = 30 * (g - b) + np.where(g < b, 180 * d, 0)
    green = 30 * (b - r) + 60 * d
    blue = 30 * (r - g) + 120 * d
    numerator = np.where(v == r, red, np.where(v == g, green, blue))
    return np.where(d == 0, 0, halves_up(numerator, one)), s, v


class Kind:
    """A kind of difference: how often, and its smallest pixel."""

    def __init__(self, name):
        self.name, self.count, self.least = name, 0, None

    def add(self, where, b, g, r, here, there):
        found = np.flatnonzero(where)
        self.count += len(found)
        if len(found) == 0:
            return
        key = np.maximum(np.maximum(b, g), r)[found]
        i = found[np.argmin(key)]
        pixel = (int(key.min()), int(b[i]), int(g[i]), int(r[i]))
        if self.least is None or pixel < self.least[0]:
            self.least = (pixel, int(here[i]), int(there[i]))

    def line(self):
        if self.least is None:
            return f"{self.name}: 0"
        (_, b, g, r), here, there = self.least
        return f"{self.name}: {self.count}, smallest BGR ({b}, {g}, {r}): {here} by the rule, {there} by OpenCV"


def main():
    print("OpenCV", cv2.__version__)
    wrap = Kind("H, 180 capped to 179 and wrapped to 0")
    hue = Kind("H, other")
    saturation = Kind("S")
    value = Kind("V")
    any_differs = 0
    capped = 0
    plane = np.arange(65536, dtype=np.int64)
    g, r = plane >> 8, plane & 255
    for blue in range(256):
        b = np.full(65536, blue, dtype=np.int64)
        raw, s, v = by_the_rule(b, g, r)
        h = np.minimum(raw, 179)
        image = np.stack([b, g, r], axis=1).astype(np.uint8).reshape(256, 256, 3)
        theirs = cv2.cvtColor(image, cv2.COLOR_BGR2HSV).reshape(65536, 3).astype(np.int64)
        capped += int((raw == 180).sum())
        wraps = (raw == 180) & (theirs[:, 0] == 0)
        wrap.add(wraps, b, g, r, h, theirs[:, 0])
        hue.add((h != theirs[:, 0]) & ~wraps, b, g, r, h, theirs[:, 0])
        saturation.add(s != theirs[:, 1], b, g, r, s, theirs[:, 1])
        value.add(v != theirs[:, 2], b, g, r, v, theirs[:, 2])
        any_differs += int(((h != theirs[:, 0]) | (s != theirs[:, 1]) | (v != theirs[:, 2])).sum())
    for kind in (wrap, hue, saturation, value):
        print(kind.line())
    print(f"{capped} pixels meet the cap at 179")
    print(f"{2 ** 24} compared, {any_differs} differ")


main()
