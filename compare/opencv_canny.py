#!/usr/bin/python3
"""The edges of RULES 5, before dilation, beside OpenCV's Canny with the same marks.

Needs Debian's python3-opencv (with numpy). OpenCV runs cv2.Canny(luma, low, high, apertureSize=3, L2gradient=False),
low and high being the marks of the median. The rule is written out here in whole numbers; that it is the Rust's is
checked first, by the Rust's digests of dilated edge planes (crates/replay_edges/stdout, widths 0 to 12). Each of the
rule's departures can be switched to OpenCV's way by itself:

  border     the border has magnitude 0 and no edges; OpenCV repeats the outer pixels and marks edges there too
  direction  the limits 414/1000 and 2414/1000; OpenCV has tan 22.5 degrees as 13573 / 2^15, and 2 more
  thinning   not below either neighbour; OpenCV asks for more than both on a diagonal, else for more than the left or
             upper one
  marks      at or over; OpenCV asks for more than the mark
  sweeps     twice forward and backward; OpenCV traces to the end

With all of them switched the two are equal on every frame tried. For each departure the script prints the smallest
frame that it finds on which all but that one do not bring the rule to OpenCV's edges.
"""
import pathlib
import zlib

import cv2
import numpy as np

ALL = ("border", "direction", "thinning", "marks", "sweeps")
STRONG, WEAK = 2, 1


def marks(luma):
    """Low and high mark of the median."""
    m = int(np.sort(luma, axis=None)[luma.size // 2])
    return (0 if m == 0 else (2 * m - 1) // 3), min(255, 4 * m // 3)


def gradients(luma, border):
    """Signed gradients of every pixel; without `border` those of the border are 0."""
    p = np.pad(luma.astype(np.int64), 1, mode="edge")
    h, w = luma.shape
    at = lambda dy, dx: p[1 + dy:1 + dy + h, 1 + dx:1 + dx + w]
    gx = at(-1, 1) + 2 * at(0, 1) + at(1, 1) - at(-1, -1) - 2 * at(0, -1) - at(1, -1)
    gy = at(1, -1) + 2 * at(1, 0) + at(1, 1) - at(-1, -1) - 2 * at(-1, 0) - at(-1, 1)
    if not border:
        inner = np.zeros(luma.shape, dtype=np.int64)
        inner[1:-1, 1:-1] = 1
        gx, gy = gx * inner, gy * inner
    return gx, gy


def direction(gx, gy, theirs):
    """0 across, 2 down, 1 and 3 the diagonals."""
    ax, ay = abs(gx), abs(gy)
    if theirs:
        across, down = (ay << 15) < ax * 13573, (ay << 15) > ax * 13573 + (ax << 16)
    else:
        across, down = 1000 * ay < 414 * ax, 1000 * ay > 2414 * ax
    if across:
        return 0
    if down:
        return 2
    if theirs:
        return 3 if (gx < 0) != (gy < 0) else 1
    return 1 if np.sign(gx) == np.sign(gy) else 3


NEIGHBOURS = {0: (0, 1), 1: (1, 1), 2: (1, 0), 3: (-1, 1)}


def kept(mag, y, x, d, theirs):
    """Whether thinning keeps the pixel. mag has a margin of one place."""
    dy, dx = NEIGHBOURS[d]
    m, after, before = mag[y + 1, x + 1], mag[y + 1 + dy, x + 1 + dx], mag[y + 1 - dy, x + 1 - dx]
    if theirs and d in (0, 2):
        return m > before and m >= after
    if theirs:
        return m > before and m > after
    return m >= before and m >= after


def classes(luma, low, high, ways):
    gx, gy = gradients(luma, "border" in ways)
    h, w = luma.shape
    mag = np.pad(abs(gx) + abs(gy), 1)
    out = np.zeros((h, w), dtype=np.int64)
    more = "marks" in ways
    for y in range(h):
        for x in range(w):
            m = mag[y + 1, x + 1]
            if m == 0 or (m <= low if more else m < low):
                continue
            d = direction(int(gx[y, x]), int(gy[y, x]), "direction" in ways)
            if kept(mag, y, x, d, "thinning" in ways):
                out[y, x] = STRONG if (m > high if more else m >= high) else WEAK
    return out


def sweep(c, places, beside):
    for y, x in places:
        if c[y, x] == WEAK and any(
            0 <= y + dy < c.shape[0] and 0 <= x + dx < c.shape[1] and c[y + dy, x + dx] == STRONG for dy, dx in beside
        ):
            c[y, x] = STRONG


def edges(luma, ways=()):
    """255 at each strong pixel, by the rule with these departures switched to OpenCV's way."""
    c = classes(luma, *marks(luma), ways)
    places = [(y, x) for y in range(c.shape[0]) for x in range(c.shape[1])]
    rounds = c.size + 1 if "sweeps" in ways else 2
    for _ in range(rounds):
        before = c.copy()
        sweep(c, places, [(-1, -1), (-1, 0), (-1, 1), (0, -1)])
        sweep(c, places[::-1], [(1, 1), (1, 0), (1, -1), (0, 1)])
        if (before == c).all():
            break
    return np.where(c == STRONG, 255, 0).astype(np.uint8)


def opencv(luma):
    low, high = marks(luma)
    return cv2.Canny(luma, low, high, apertureSize=3, L2gradient=False)


def shade(b, kind):
    return (b, b % 2 * 255, b % 3 * 127, b % 6 * 51, 96 + b // 4, 131 + b % 2 * 62)[kind]


def digest(width):
    """The batch `edges WIDTH` of README.md, by the rule of this script."""
    x, total = width, 1
    for c in range(600):
        height, kind, k = c // 24, c // 4 % 6, (3, 5, 13, 101)[c % 4]
        luma = np.zeros((height, width), dtype=np.uint8)
        for place in range(width * height):
            x = (x * 1664525 + 1013904223) % 2**32
            luma[place // width, place % width] = shade(x // 65536 % 256, kind)
        plane = np.zeros((height, width), dtype=np.uint8)
        if width >= 3 and height >= 3:
            plane = cv2.dilate(edges(luma), np.ones((k, k), dtype=np.uint8))
        total = zlib.adler32(plane.tobytes(), total)
    return total


def same_as_the_rust():
    stored = pathlib.Path(__file__).parent.parent / "crates" / "replay_edges" / "stdout"
    lines = stored.read_text().splitlines()[:13]
    return sum(lines[w] == f"edges {w} {digest(w)}" for w in range(13))


def few_levels(generator):
    """Small noise on few levels."""
    h, w = generator.integers(3, 8, 2)
    base, span, levels = (int(generator.integers(*of)) for of in ((0, 200), (2, 57), (2, 6)))
    return base + generator.integers(0, levels, (h, w)) * span // (levels - 1)


def two_levels(generator):
    """Larger noise on two near levels: long chains of weak pixels."""
    h, w = generator.integers(5, 13, 2)
    base, span = int(generator.integers(60, 190)), int(generator.integers(20, 65))
    return base + generator.integers(0, 2, (h, w)) * span


def between_limits(generator):
    """5 x 5 with the gradient (99, 41) in the middle: between the limits of the rule and of OpenCV."""
    luma = generator.integers(60, 130, (5, 5))
    inner = luma[1:4, 1:4]
    inner[2, 2], inner[1, 2], inner[2, 1], inner[2, 0] = inner[0, 0], inner[1, 0], inner[0, 1], inner[0, 2]
    corner = 2 * int(generator.integers(0, 21)) + 1
    inner[2, 2] += corner
    inner[1, 2] += (99 - corner) // 2
    inner[2, 1] += (41 - corner) // 2
    return luma


# which departures a family of frames is to show, and how many frames
FAMILIES = (
    (few_levels, 5000, ("border", "thinning", "marks")),
    (two_levels, 1500, ("sweeps",)),
    (between_limits, 500, ("direction",)),
)

# found by a longer search of the same kind
FOUND = np.array([[160, 160, 196, 196, 196], [160, 160, 196, 160, 196], [160, 196, 160, 160, 160]], dtype=np.uint8)

# tracing to the end alone changes the rule's edges here
STILL = np.array(
    [
        [193, 131, 131, 131, 131, 193, 131],
        [131, 193, 131, 131, 131, 131, 193],
        [131, 131, 131, 131, 131, 131, 193],
        [131, 131, 131, 193, 131, 131, 193],
    ],
    dtype=np.uint8,
)


def line(plane):
    return " / ".join(",".join(str(v) for v in row) for row in plane.tolist())


def others(way):
    return [w for w in ALL if w != way]


def show(way, luma):
    print(f"{way}: {luma.shape[1]} x {luma.shape[0]}, marks {marks(luma)}: {line(luma)}")
    print(f"  the rule             {line(edges(luma))}")
    print(f"  OpenCV               {line(opencv(luma))}")
    print(f"  all but {way:<9}    {line(edges(luma, others(way)))}")


def main():
    print("OpenCV", cv2.__version__)
    print(f"{same_as_the_rust()} of 13 digests are the Rust's")
    generator = np.random.default_rng(1)
    count, differ, all_differ, least = 0, 0, 0, {}
    for family, frames, ways in FAMILIES:
        for i in range(frames):
            luma = FOUND if family is two_levels and i == 0 else family(generator).clip(0, 255).astype(np.uint8)
            theirs = opencv(luma)
            count += 1
            differ += int((edges(luma) != theirs).any())
            all_differ += int((edges(luma, ALL) != theirs).any())
            for way in ways:
                if way in least and least[way].size <= luma.size:
                    continue
                if (edges(luma, others(way)) != theirs).any():
                    least[way] = luma
    for way in ALL:
        show(way, least[way]) if way in least else print(f"{way}: no frame shows it")
    print(f"sweeps, in the rule alone: 7 x 4, marks {marks(STILL)}: {line(STILL)}")
    print(f"  the rule             {line(edges(STILL))}")
    print(f"  traced to the end    {line(edges(STILL, ['sweeps']))}")
    print(f"  OpenCV               {line(opencv(STILL))}")
    print(f"{count} frames compared: {differ} differ; with every departure switched {all_differ} differ")


main()
