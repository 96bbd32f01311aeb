#!/usr/bin/env python3
"""Prints what examples/calls.c must print: calls_c.stdout is its output.

This is a small model of docs/RULES.md and of the layout of words in include/mawerodu.h, in plain Python. It is written from
these two texts and not from the proved code, and it does not call the library. Pictures, settings and calls are those of
calls.c, in the same order; a rule is named where it is used. Floats are those of Python, which are doubles.
"""
import re
import struct
from fractions import Fraction

WIDTH, HEIGHT = 12, 9
STRIDES = {"luma": 13, "bgr": 40, "hsv": 15}

# kind, timestamp, the colour around a block and the colour of the block, its left, top, right and bottom
FILM = [
    ("hsv", 1000000, (20, 60, 90), (50, 110, 200), 2, 2, 6, 6),
    ("hsv", 1100000, (90, 80, 150), (20, 200, 60), 5, 1, 10, 5),
    ("bgr", 1300000, (10, 60, 120), (200, 180, 40), 1, 3, 7, 8),
    ("luma", 1500000, (70, 0, 0), (180, 0, 0), 3, 2, 9, 6),
    ("luma", 1700000, (160, 0, 0), (20, 0, 0), 2, 4, 6, 7),
    ("luma", 1800000, (161, 0, 0), (22, 0, 0), 2, 4, 6, 7),
    ("luma", 2100000, (160, 0, 0), (23, 0, 0), 2, 4, 6, 7),
    ("hsv", 2500000, (120, 40, 30), (10, 90, 240), 6, 2, 11, 7),
    ("hsv", 2600000, (121, 43, 35), (10, 90, 240), 6, 2, 11, 7),
    ("bgr", 3000000, (90, 200, 30), (30, 20, 220), 4, 1, 8, 8),
]


# ---- planes (RULES 2.7, 3) ----

def rounded(x):
    return (x + Fraction(1, 2)).__floor__()


def hsv_of(b, g, r):
    v, d = max(b, g, r), max(b, g, r) - min(b, g, r)
    saturation = Fraction(255 * d, v) if v else Fraction(0)
    if d == 0:
        degrees = Fraction(0)
    elif v == r:
        degrees = Fraction(60 * (g - b), d)
        degrees += 360 if degrees < 0 else 0
    elif v == g:
        degrees = Fraction(60 * (b - r), d) + 120
    else:
        degrees = Fraction(60 * (r - g), d) + 240
    return min(rounded(degrees / 2), 179), rounded(saturation), v


def planes_of(picture):
    kind, _, back, block, left, top, right, bottom = picture
    colours = []
    for y in range(HEIGHT):
        for x in range(WIDTH):
            colour = block if left <= x < right and top <= y < bottom else back
            colours.append({"luma": (0, 0, colour[0]), "bgr": hsv_of(*colour), "hsv": colour}[kind])
    return [[colour[i] for colour in colours] for i in range(3)]


# ---- edges (RULES 5) ----

def edge_plane(luma, kernel):
    n = WIDTH * HEIGHT
    at = lambda x, y: luma[y * WIDTH + x]
    median = sorted(luma)[n // 2]
    low = (2 * median - 1) // 3 if median else 0
    high = min(255, 4 * median // 3)
    magnitude, direction = {}, {}
    for y in range(HEIGHT):
        for x in range(WIDTH):
            if not (0 < x < WIDTH - 1 and 0 < y < HEIGHT - 1):
                magnitude[x, y], direction[x, y] = 0, 0
                continue
            weights = (1, 2, 1)
            gx = sum(w * (at(x + 1, y + i) - at(x - 1, y + i)) for i, w in zip((-1, 0, 1), weights))
            gy = sum(w * (at(x + i, y + 1) - at(x + i, y - 1)) for i, w in zip((-1, 0, 1), weights))
            sign = lambda z: (z > 0) - (z < 0)
            magnitude[x, y] = abs(gx) + abs(gy)
            if 1000 * abs(gy) < 414 * abs(gx):
                direction[x, y] = 0
            elif 1000 * abs(gy) > 2414 * abs(gx):
                direction[x, y] = 2
            else:
                direction[x, y] = 1 if sign(gx) == sign(gy) else 3
    strong, weak = set(), set()
    for y in range(1, HEIGHT - 1):
        for x in range(1, WIDTH - 1):
            dx, dy = ((1, 0), (1, 1), (0, 1), (1, -1))[direction[x, y]]
            here = magnitude[x, y]
            if here > 0 and here >= magnitude[x + dx, y + dy] and here >= magnitude[x - dx, y - dy]:
                if here >= high:
                    strong.add((x, y))
                elif here >= low:
                    weak.add((x, y))
    places = [(x, y) for y in range(HEIGHT) for x in range(WIDTH)]
    for _ in range(2):
        for order, beside in ((places, ((-1, -1), (0, -1), (1, -1), (-1, 0))),
                              (places[::-1], ((1, 1), (0, 1), (-1, 1), (1, 0)))):
            for x, y in order:
                if (x, y) in weak and any((x + dx, y + dy) in strong for dx, dy in beside):
                    weak.remove((x, y))
                    strong.add((x, y))
    reach = kernel // 2
    return [255 if any(abs(sx - x) <= reach and abs(sy - y) <= reach for sx, sy in strong) else 0 for x, y in places]


def auto_kernel():
    d = 0
    while (96 * (2 * (d + 1) - 1)) ** 2 <= WIDTH * HEIGHT:
        d += 1
    return 4 + d + (4 + d + 1) % 2


# ---- words ----

def bits(x):
    return struct.unpack("<Q", struct.pack("<d", x))[0]


def stamp(ts):
    return ts % 2 ** 64


def maybe(x, word):
    return [0, 0] if x is None else [1, word(x)]


def shown(words):
    return " ".join(f"{place}:{word:x}" for place, word in enumerate(words) if word)


def number(x):
    return "%.17g" % x


# ---- detectors (RULES 6 to 9) ----

class Detector:
    def __init__(self, threshold, min_duration, weights, kernel, initial_cut):
        self.threshold, self.min_duration, self.weights = threshold, min_duration, weights
        self.kernel, self.initial_cut = kernel, initial_cut
        self.width = self.height = 0
        self.fill = 0
        self.clear()

    def clear(self):
        self.previous = self.score = self.deltas = None

    def store(self, picture):
        """The planes after a frame; with edges off the last one stays as it was before the first."""
        planes = planes_of(picture)
        if self.weights[3]:
            return planes + [edge_plane(planes[2], self.kernel or auto_kernel())]
        return planes + [[self.fill] * (WIDTH * HEIGHT)]

    def median(self):
        """The luma median of the last frame (RULES 5.3)."""
        return sorted(self.previous[2])[WIDTH * HEIGHT // 2]

    def frame(self, picture):
        """The cut, the score, the components, the sums and the count of a frame of WIDTH x HEIGHT."""
        planes = self.store(picture)
        before, self.previous = self.previous, planes
        self.width, self.height = WIDTH, HEIGHT
        if before is None:
            self.score = self.deltas = None
            self.unscored()
            return None, None, [0.0] * 4, [0] * 4, 0
        n = WIDTH * HEIGHT
        sums = [sum(abs(a - b) for a, b in zip(*pair)) for pair in zip(planes, before)]  # RULES 4.4
        self.deltas = [x / n for x in sums]
        h, s, l, e = self.deltas
        wh, ws, wl, we = self.weights
        self.score = (h * wh + s * ws + l * wl + e * we) / (abs(wh) + abs(ws) + abs(wl) + abs(we))
        return self.scored(picture[1]), self.score, self.deltas, sums, n

    def seed(self, ts):
        return max(ts - self.min_duration, -2 ** 63) if self.initial_cut else ts

    def met(self, ts, last):
        return last + self.min_duration <= ts

    def shared(self):
        """The words of the kernel and of initial_cut, and those of the stream."""
        words = maybe(self.kernel, int) + [int(self.initial_cut)]
        words += [int(self.previous is not None)] + maybe(self.score, bits)
        words += [0] * 5 if self.deltas is None else [1] + [bits(x) for x in self.deltas]
        return words + [self.width, self.height]


# ---- the light plan (RULES 18) ----

def rows_of(text):
    """The rows that a text says, or None if one has another shape."""
    rows = []
    parts = text.split("\n")
    for line in parts[:-1]:
        found = re.fullmatch(",".join(["(0|[1-9][0-9]{0,2})"] * 3), line, flags=re.ASCII)
        numbers = [int(number) for number in found.groups()] if found else [256]
        if max(numbers) > 255:
            return None
        rows.append(tuple(numbers))
    return rows if parts[-1] == "" else None


def rows_refusal(rows):
    if rows is None or len(rows) > 16 or any(first > last for first, last, _ in rows):
        return 20
    having = [sum(first <= median <= last for first, last, _ in rows) for median in range(256)]
    return 0 if not rows else 21 if max(having) > 1 else 22 if min(having) == 0 else 0


def plan_words(rows):
    words = [len(rows)]
    for part in range(3):
        words += struct.unpack("<2Q", bytes(row[part] for row in rows).ljust(16, b"\0"))
    return words


def plan_text(rows):
    return "".join("%d,%d,%d\n" % row for row in rows)


class Content(Detector):
    VERSION = 0x4D57434F4E543032

    def __init__(self, threshold, min_duration, weights, mode, kernel, initial_cut, plan=""):
        self.mode, self.plan = mode, rows_of(plan)
        super().__init__(threshold, min_duration, weights, kernel, initial_cut)

    def clear(self):
        super().clear()
        self.unscored()

    def unscored(self):
        self.last = self.start = None
        self.enabled = self.pending = False

    def scored(self, ts):
        mine = [threshold for first, last, threshold in self.plan if first <= self.median() <= last]
        above = self.score >= (mine[0] if self.plan else self.threshold)
        if self.last is None:
            self.last = self.seed(ts)
        met = self.met(ts, self.last)
        if self.mode == 1:  # RULES 7.3
            if above and met:
                self.last = ts
                return ts
            return None
        if above:  # RULES 7.4
            self.last = ts
        if self.pending:
            if not above and met and max(self.last - self.start, 0) >= self.min_duration:
                self.pending = False
                return self.last
        elif above and met:
            self.enabled = True
            return ts
        elif above and self.enabled:
            self.pending, self.start = True, ts
        return None

    def words(self):
        words = [self.VERSION, bits(self.threshold), self.min_duration] + [bits(w) for w in self.weights] + [self.mode]
        words += self.shared() + maybe(self.last, stamp) + [int(self.enabled), int(self.pending)]
        return words + maybe(self.start, stamp) + plan_words(self.plan)


class Adaptive(Detector):
    VERSION = 0x4D57414441503031

    def __init__(self, threshold, min_duration, window, least, weights, kernel, initial_cut):
        self.window, self.least = window, least
        super().__init__(threshold, min_duration, weights, kernel, initial_cut)

    def clear(self):
        super().clear()
        self.stamps, self.scores, self.sum = [], [], 0.0
        self.last = self.ratio = self.target = None

    def unscored(self):
        pass

    def scored(self, ts):
        full = 2 * self.window + 1
        self.stamps.append(ts)
        self.scores.append(self.score)
        self.sum += self.score  # RULES 9.5
        if len(self.scores) > full:
            self.sum -= self.scores.pop(0)
            self.stamps.pop(0)
        if len(self.scores) < full:
            return None
        at, self.target = self.stamps[self.window], self.scores[self.window]
        average = (self.sum - self.target) / (2 * self.window)
        if abs(average) < 1e-5:
            self.ratio = 255.0 if self.target >= self.least else 0.0
        else:
            self.ratio = min(self.target / average, 255.0)
        if self.last is None:
            self.last = self.seed(at)
        if self.ratio >= self.threshold and self.target >= self.least and self.met(at, self.last):
            self.last = at
            return at
        return None

    def words(self):
        words = [self.VERSION, bits(self.threshold), self.min_duration, self.window, bits(self.least)]
        words += [bits(w) for w in self.weights] + self.shared()
        words += [len(self.scores), bits(self.sum)] + maybe(self.last, stamp)
        words += maybe(self.ratio, bits) + maybe(self.target, bits)
        words += [stamp(ts) for ts in self.stamps] + [0] * (129 - len(self.stamps))
        return words + [bits(x) for x in self.scores] + [0] * (129 - len(self.scores))


# ---- the list of a sitting (RULES 17) ----

LEAST, MOST = -2 ** 63, 2 ** 63 - 1
LENT, HELD = 515, 523


class CutList:
    """Words, memory of HELD places that is 77 at first, and how many of these are lent. Whole numbers that differ do so by
    at least 1, so that stamps differ and keep the minimum exactly if they keep the larger of it and 1."""
    VERSION = 0x4D574C4953543031

    def __init__(self, minimum):
        self.words = [self.VERSION, minimum, 0]
        self.memory = [77] * HELD
        self.length = LENT

    def stamps(self):
        return self.memory[:self.words[2]]

    def bad(self):
        version, minimum, count = self.words
        return (version != self.VERSION or count > 512 or self.length < 512
                or any(y - x < max(minimum, 1) for x, y in zip(self.stamps(), self.stamps()[1:])))

    def add(self, ts, _):
        stamps = self.stamps()
        if any(abs(x - ts) < max(self.words[1], 1) for x in stamps):
            return 17
        if len(stamps) == 512:
            return 18
        self.memory[:len(stamps) + 1] = sorted(stamps + [ts])
        self.words[2] += 1
        return 0

    def remove(self, ts, _):
        stamps = self.stamps()
        if ts not in stamps:
            return 19
        self.memory[:len(stamps)] = [x for x in stamps if x != ts] + [0]
        self.words[2] -= 1
        return 0

    def empty(self, _, __):
        self.memory[:self.words[2]] = [0] * self.words[2]
        self.words[2] = 0
        return 0

    def nearest(self, ts, _):
        found = sorted(self.stamps(), key=lambda x: (abs(x - ts), x))
        return (1, found[0]) if found else (0, 0)

    def span(self, a, b):
        places = [place for place, x in enumerate(self.stamps()) if a <= x <= b]
        return (places[0], len(places)) if places else (0, 0)

    def clip(self, ts, _):
        return (len([x for x in self.stamps() if x <= ts]),)

    def shown(self):
        changed = [(place, x) for place, x in enumerate(self.memory) if x != 77]
        text = "list %x %x %x, " % tuple(self.words) + f"{len(changed)} places"
        if len(changed) > 16:
            total = 0
            for x in self.memory:
                total = (31 * total + x) % 2 ** 64
            return f"{text} {total:x}"
        return " ".join([text] + [f"{place}:{x}" for place, x in changed])


# a name, the stamp and 0; of a span, its two ends; of empty, 0 and 0
BY_HUNDRED = [
    # without stamps
    ("nearest", 5, 0), ("span", LEAST, MOST), ("clip", 5, 0), ("empty", 0, 0), ("remove", 5, 0),
    # at the minimum: the first, after it, before it
    ("add", 1000, 0), ("add", 1100, 0), ("add", 900, 0),
    # nearer by one: after the last, before the first; between two; equal
    ("add", 1199, 0), ("add", 801, 0), ("add", 1050, 0), ("add", 1000, 0),
    # at the minimum from both; nearer to the one after, nearer to the one before
    ("add", 1300, 0), ("add", 1500, 0), ("add", 1200, 0), ("add", 1401, 0), ("add", 1399, 0), ("add", 1400, 0),
    ("add", -500, 0),
    # a tie, and beside it; before all, after all, a stamp itself
    ("nearest", 1250, 0), ("nearest", 1251, 0), ("nearest", 1249, 0), ("nearest", -9000, 0), ("nearest", 9000, 0),
    ("nearest", 1100, 0),
    # ends at stamps and beside them; none, and the wrong way round
    ("span", 1100, 1300), ("span", 1101, 1299), ("span", 1101, 1199), ("span", 1300, 1100), ("span", LEAST, MOST),
    ("span", 1500, 1500), ("span", 1501, 9000), ("span", -9000, -500),
    # at a stamp and before it
    ("clip", -501, 0), ("clip", -500, 0), ("clip", 1099, 0), ("clip", 1100, 0), ("clip", 1500, 0), ("clip", MOST, 0),
    # absent; the first, the last, one between, the same again
    ("remove", 1101, 0), ("remove", -500, 0), ("remove", 1500, 0), ("remove", 1200, 0), ("remove", 1200, 0),
    # into the gap
    ("add", 1250, 0), ("add", 1200, 0), ("empty", 0, 0), ("nearest", 1200, 0), ("add", 50, 0),
]
BY_NOTHING = [
    ("add", 5, 0), ("add", 5, 0), ("add", 6, 0), ("add", 4, 0), ("add", 4, 0), ("nearest", 5, 0), ("span", 5, 5),
    ("remove", 5, 0), ("nearest", 5, 0),
]
BY_ALL = [
    ("add", LEAST, 0), ("add", MOST - 1, 0), ("add", MOST, 0), ("add", 0, 0), ("nearest", 0, 0), ("nearest", -1, 0),
    ("nearest", LEAST, 0), ("span", LEAST, -1), ("span", MOST, MOST), ("clip", LEAST, 0), ("clip", MOST - 1, 0),
    ("remove", LEAST, 0), ("add", LEAST + 1, 0), ("add", LEAST, 0), ("empty", 0, 0),
]
BY_HALF = [
    ("add", 0, 0), ("add", MOST, 0), ("add", LEAST + 1, 0), ("add", LEAST, 0), ("clip", -1, 0),
]
ON_FULL = [
    # too close or equal before full
    ("add", 5125, 0), ("add", 5120, 0), ("add", 5130, 0), ("add", 0, 0),
    ("clip", MOST, 0), ("span", 15, 5111), ("nearest", 2555, 0),
    # one out and in again, the last replaced, the first replaced
    ("remove", 5, 0), ("remove", 2560, 0), ("add", 2561, 0), ("add", 2560, 0), ("remove", 5120, 0), ("add", 5130, 0),
    ("remove", 10, 0), ("add", LEAST, 0), ("add", MOST, 0), ("empty", 0, 0),
]
# words, the first three stamps, the number of places: a list without a fault, then lists with one each
VERSION = CutList.VERSION
MADE = [
    ((VERSION, 100, 3), (100, 200, 300), LENT),
    ((VERSION + 1, 100, 3), (100, 200, 300), LENT),
    ((0, 100, 3), (100, 200, 300), LENT),
    ((VERSION, 100, 513), (100, 200, 300), LENT),
    ((VERSION, 100, 2 ** 32), (100, 200, 300), LENT),
    ((VERSION, 100, 2 ** 64 - 1), (100, 200, 300), LENT),
    ((VERSION, 100, 3), (100, 200, 300), 511),
    ((VERSION, 100, 3), (100, 200, 300), 0),
    ((VERSION, 0, 3), (100, 100, 300), LENT),
    ((VERSION, 0, 3), (100, 99, 300), LENT),
    ((VERSION, 0, 3), (MOST, LEAST, 300), LENT),
    ((VERSION, 100, 3), (100, 199, 300), LENT),
    ((VERSION, 100, 3), (100, 200, 299), LENT),
]
ON_MADE = [("add", 200, 0), ("remove", 250, 0), ("empty", 0, 0), ("nearest", 250, 0), ("span", 100, 300), ("clip", 200, 0)]


def called(cuts, name, a, b):
    """The number of an operation, and of a look-up its result."""
    if cuts.bad():
        return 15, ()
    result = getattr(cuts, name)(a, b)
    return (0, result) if name in ("nearest", "span", "clip") else (result, None)


def operate(cuts, operations):
    for name, a, b in operations:
        answered, result = called(cuts, name, a, b)
        print(f"mw_list_{name} {a} {b}: {answered}", *((cuts.shown(),) if result is None else (*result, "as before")))


def lists():
    for minimum, operations in ((100, BY_HUNDRED), (0, BY_NOTHING), (2 ** 64 - 1, BY_ALL), (2 ** 63, BY_HALF)):
        print("mw_list_new done")
        operate(CutList(minimum), operations)
    for length in (512, LENT):
        print("mw_list_new done")
        full = CutList(10)
        full.length = length
        print("full", [full.add(10 * (i * 77 % 512 + 1), 0) for i in range(512)].count(0), full.shown())
        operate(full, ON_FULL)
    for words, first, length in MADE:
        for name, a, b in ON_MADE:
            cuts = CutList(0)
            cuts.words, cuts.length = list(words), length
            cuts.memory = list(first) + [100 * (i + 1) for i in range(3, HELD)]
            answered = called(cuts, name, a, b)[0]
            print(f"mw_list_{name}", answered, "as before" if answered else "changed")


# ---- the calls of calls.c ----

def memory(width, height):
    """Store, scratch and magnitudes (RULES 12.1, 15.8)."""
    if max(width, height) > 4096:
        return 0, 0, 0
    n = width * height
    return 4 * n, 7 * n + 2 * max(width, height), n


TEXTS = (
    "accepted",
    "width or height is over 4,096",
    "stride is shorter than a row",
    "luma, BGR or hue data is too short",
    "saturation plane is too short",
    "value plane is too short",
    "a weight is not finite, or beyond 2^20 in size",
    "all weights are zero",
    "a set kernel size is below 3 or even",
    "threshold or min_content_val is NaN",
    "window_width is 0",
    "window_width is over 64",
    "store is too short",
    "scratch is too short",
    "magnitudes are too short",
    "not a valid state or list, or not a filter mode",
    "unknown number",
    "the stamp equals one of the list, or is closer to one than min_duration",
    "the list holds 512 stamps",
    "the stamp is not in the list",
    "a row of the plan has another shape or starts past its end, or there are more than 16 rows",
    "two rows of the plan have the same median",
    "a median has no row in the plan",
    "unknown number",
)


def numbers():
    print("mw_version MW_VERSION")
    print("mw_content_words", 34)
    print("mw_adaptive_words", 288)
    print("mw_answer_words", 13)
    print("mw_list_words", 3)
    print("mw_list_places", 512)
    for width, height in ((12, 9), (9, 12), (4096, 3), (3, 4096), (4097, 3), (3, 4097)):
        print("mw_store_bytes %d mw_scratch_bytes %d mw_magnitudes %d" % memory(width, height))
    for i, text in enumerate(TEXTS):
        print("mw_text", i, text)


def answer(cut, score, deltas, sums, count):
    """A reader by place gives 0 at a place that does not exist: at 4, and for a sum at 2^32 - 1 too."""
    parts = ["mw_cut 0" if cut is None else f"mw_cut 1 {cut}"]
    parts += ["mw_score 0" if score is None else f"mw_score 1 {number(score)}"]
    parts += ["mw_delta " + number(x) for x in list(deltas) + [0.0]]
    return " ".join(parts + [f"mw_sum {x}" for x in sums + [0, 0]] + [f"mw_count {count}"])


def readers(name, detector):
    def one(what, value):
        has, shown = (0, 0.0) if value is None else (1, value)
        return f"mw_{name}_has_{what} {has} mw_{name}_{what} {number(shown)}"

    parts = [one("score", detector.score), f"mw_{name}_has_components {int(detector.deltas is not None)}"]
    parts += [f"mw_{name}_component {number(x)}" for x in (detector.deltas or [0.0] * 4) + [0.0]]
    if name == "adaptive":
        parts += [one("ratio", detector.ratio), one("target", detector.target)]
    print(" ".join(parts), "readers")


def film(name, detector, feed):
    """Frames by the plain calls, on a store of 77, or by the feed calls, on one of 0; then readers, words and clear."""
    detector.fill = 0 if feed else 77
    if feed:
        print("mw_memory_init", 0)
    for picture in FILM:
        call = f"mw_{name}_{'feed_' if feed else ''}{picture[0]}"
        shown_answer = answer(*detector.frame(picture))
        sums = [sum(plane) for plane in detector.previous]
        print(call, picture[1], 0, shown_answer, "mw_luma_median 0", detector.median(), "store", *sums, "kept")
    readers(name, detector)
    print("words", shown(detector.words()))
    print(f"mw_{name}_clear", 0)
    detector.clear()
    print("words", shown(detector.words()))
    readers(name, detector)
    if feed:
        print("mw_memory_free done")


def refused(name, feed):
    """One fault at a time, in the order of calls.c, on a frame that is in order else: a state that is not one, a side over
    4,096 (width, then height), the stride, each plane, store, scratch and magnitudes one short. A feed call has one length
    for the three planes, so that 4 and 5 do not occur."""
    for kind in ("luma", "bgr", "hsv"):
        for fault in [15, 1, 1, 2, 3] + ([4, 5] if kind == "hsv" and not feed else []) + [12, 13, 14]:
            print(f"mw_{name}_{'feed_' if feed else ''}{kind}", fault, "no cut, no score, no sums" if feed else "as before")


def empty(name):
    """Memory of length 0: a state that is not one, a side too large, a stride too short, data too short, a frame with
    pixels (12), a frame without pixels of height 9, which needs 18 bytes of scratch (13), a frame of 0 x 0 (0)."""
    for kind in ("luma", "bgr", "hsv"):
        for fault in (15, 1, 2, 3, 12, 13, 0):
            print(f"mw_{name}_feed_{kind}", fault, "no cut, no score, no sums")


PLANS = (
    "161,161,0\n0,34,117\n35,69,1\n70,120,101\n121,160,66\n162,255,140\n",
    "36,255,30\n0,35,0\n",
)
ONES = "".join(f"{i},{i},{i}\n" for i in range(15))

# plans, and none; other shapes; a first number over the second and more than 16 rows; two rows for a median; none for one; two faults
TEXTS_OF_PLANS = [
    "", "0,255,30\n", "0,255,0\n", "128,255,40\n0,127,12\n", "0,0,1\n1,255,9\n", "0,254,1\n255,255,255\n",
    ONES + "15,255,255\n",
    "240,255,240\n224,239,224\n208,223,208\n192,207,192\n176,191,176\n160,175,160\n144,159,144\n128,143,128\n"
    "112,127,112\n100,111,100\n84,99,84\n68,83,68\n52,67,52\n36,51,36\n20,35,20\n0,19,0\n",
    "0,255,30", "\n", "0,255,30\n\n", "\n0,255,30\n", "0,255,30\r\n",
    "0,255\n", "0,255,30,\n", "0,255,30,1\n", ",0,255,30\n", "0,,30\n",
    ",,\n", "0;255;30\n", "00,255,30\n", "0,255,030\n", " 0,255,30\n",
    "0,255,30 \n", "+0,255,30\n", "-0,255,30\n", "0,255,3.0\n", "0,255,3e1\n",
    "0x0,255,30\n", '"0",255,30\n', "0,256,30\n", "0,255,256\n",
    "256,255,30\n", "0,18446744073709551871,30\n", "from,to,threshold\n0,255,30\n",
    "255,0,30\n", "0,255,30\n9,8,1\n", ONES + "15,15,15\n16,255,255\n",
    "0,100,5\n100,255,9\n", "100,255,9\n0,100,9\n", "0,255,5\n7,7,9\n",
    "0,255,30\n0,255,30\n", "0,254,5\n255,255,9\n255,255,8\n", "0,0,5\n0,255,9\n",
    "0,100,5\n102,255,9\n", "1,255,30\n", "0,254,30\n", "128,128,1\n",
    "0,100,5\n100,200,5\n", "0,99,5\n201,255,5\n150,160,5\n160,170,5\n", "0,100,5\n100,255,5\n9,8,1\n",
    "0,100,5\n102,255,9", "1,255,30\n0\n",
]
# with settings that are refused by this number before the plan
AFTER_OTHERS = [
    (6, "x"), (7, "x"), (8, "0,100,5\n100,255,9\n"), (9, "1,255,30\n"), (15, "x"), (15, "0,255,30\n"), (9, "0,255,30\n"), (15, ""),
]

# the count in the words of a state, and its 16 rows, whatever the count
TWO = [(0, 99, 8), (100, 255, 27), (7, 3, 5), (9, 9, 1)]
SIXTEEN = [(i, i, i + 1) for i in range(15)] + [(15, 255, 255)]
MADE_PLANS = [
    (2, TWO), (0, [(1, 2, 3)]), (16, SIXTEEN), (17, SIXTEEN),
    (2 ** 32 - 1, [(0, 255, 30)]), (2 ** 32, [(0, 255, 30)]), (2 ** 32 + 1, [(0, 255, 30)]),
    (1, [(255, 0, 30)]), (2, [(0, 100, 8), (100, 255, 27)]), (2, [(0, 98, 8), (100, 255, 27)]), (1, [(0, 254, 30)]), (1, [(1, 255, 30)]),
]
PLANE = (9, 1, 8, 99, 2, 7, 3, 99, 6, 4, 5, 99)
MEDIANS = [
    (3, 3, 4, 12), (3, 2, 4, 8), (2, 3, 4, 12), (1, 1, 1, 1), (4, 3, 4, 12), (0, 3, 4, 12), (3, 0, 4, 12),
    (0, 0, 0, 0), (4097, 0, 0, 0), (0, 4097, 0, 0), (4097, 1, 4, 12), (3, 3, 2, 12), (3, 3, 2, 0), (3, 3, 4, 11), (0, 3, 4, 11),
]


def show_plan(text):
    print("mw_content_plan", len(text), text.replace("\n", ";"), "kept")


def default_content():
    return Content(27.0, 1000000, (1.0, 1.0, 1.0, 0.0), 0, None, True)


def plans():
    numbered = [(rows_refusal(rows_of(text)), text) for text in TEXTS_OF_PLANS]
    for number, text in numbered + AFTER_OTHERS:
        print("mw_content_new_with_plan", number, "the defaults" if number else "these settings", end=" ")
        show_plan("" if number else text)
    for count, rows in MADE_PLANS:
        rows = (rows + [(0, 0, 0)] * 16)[:16]
        held, is_record = rows[:count], count < 2 ** 32
        bad = not is_record or count > 16 or rows_refusal(held) != 0
        show_plan(plan_text(held) if is_record else "")
        # a state is written with 0 behind the rows of its plan
        print("mw_content_clear", "15 as before" if bad else "0 as before" if not any(map(any, rows[count:])) else "0 changed")
        detector = default_content()
        if bad:
            words = detector.words()[:27] + [count] + plan_words(rows)[1:]
        else:
            detector.plan, detector.fill = held, 77
            detector.frame(FILM[0])
            words = detector.words()
        print("mw_content_hsv", 15 if bad else 0)
        print("words", shown(words))
    show_plan("")
    for width, height, stride, length in MEDIANS:
        number = 1 if max(width, height) > 4096 else 2 if stride < width else 3 if length < height * stride else 0
        pixels = [] if number else [PLANE[y * stride + x] for y in range(height) for x in range(width)]
        median = 77 if number else sorted(pixels)[len(pixels) // 2] if pixels else 255
        print("mw_luma_median", number, median)


def detector_calls(name, default, made):
    print(f"mw_{name}_default", 0)
    print("words", shown(default.words()))
    for make in made:
        for feed in (False, True):
            detector = make()
            print(f"mw_{name}_new{'_with_plan' if name == 'content' and detector.plan else ''}", 0)
            print("words", shown(detector.words()))
            film(name, detector, feed)
    refused(name, False)
    print("mw_memory_init", 0)
    refused(name, True)
    print("mw_memory_free done")
    print("mw_memory_lend 0 0 0 not NULL")
    empty(name)
    print("mw_memory_init", 1)
    print("mw_memory_init", 1)


def main():
    numbers()
    weights = (1.0, 1.0, 1.0, 0.0)
    detector_calls("content", Content(27.0, 1000000, weights, 0, None, True), (
        lambda: Content(10.5, 300000, (1.0, 2.0, 3.0, 4.0), 1, 3, False),
        lambda: Content(20.25, 250000, (3.0, 1.0, 2.0, 0.0), 0, None, True),
        lambda: Content(10.5, 300000, (1.0, 2.0, 3.0, 4.0), 1, 3, False, PLANS[0]),
        lambda: Content(20.25, 250000, (3.0, 1.0, 2.0, 0.0), 0, None, True, PLANS[1]),
    ))
    detector_calls("adaptive", Adaptive(3.0, 1000000, 2, 15.0, weights, None, True), (
        lambda: Adaptive(1.5, 200000, 1, 2.5, (4.0, 3.0, 1.0, 2.0), 3, False),
        lambda: Adaptive(1.25, 350000, 2, 5.5, (2.0, 1.0, 3.0, 0.0), None, True),
    ))
    plans()
    lists()


if __name__ == "__main__":
    main()
