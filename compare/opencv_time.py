#!/usr/bin/python3
"""The work of a frame call by OpenCV, timed on the two frames of a file.

    opencv_time.py FILE WIDTH HEIGHT K [K ..]

FILE has two BGR frames, packed, one after the other. The first K is the side of the kernel by the frame's size. Needs
Debian's python3-opencv (with numpy). compare/run --time starts it and puts its numbers into its own tables.

Each line has the name of a call or of a stage and nanoseconds per pixel: one thread, the thread's own time, the least
of 15 calls after two that are not counted; the driver starts it three times. The frames come in turn, and the memory for results was written before. A
call does a detector's work on a frame by cv2's own functions, and keeps what the next call needs:

  luma    norm L1 of the luma plane and the last one
  HSV     norm L1 of each of the three planes and the last one
  BGR     cvtColor to HSV, split, then as HSV
  edges   in addition, on the luma plane (of HSV and BGR: the V plane): the median by calcHist, Canny with the marks of
          the median, dilate with ones k x k, norm L1 of the edge plane and the last one

The luma plane of a luma frame is the frame's first channel, and the planes of an HSV frame are its three channels. They
are kept as they are, where the proved functions copy them.
"""
import sys
import time

import cv2
import numpy as np

RUNS = 15


def best(n, call):
    """The least time of a call per pixel; the first two are not counted."""
    least = float("inf")
    for i in range(RUNS + 2):
        start = time.thread_time_ns()
        call(i)
        spent = time.thread_time_ns() - start
        least = least if i < 2 else min(least, spent)
    return least / n


def median(luma):
    """The value at place n / 2 of the sorted plane."""
    histogram = cv2.calcHist([luma], [0], None, [256], [0, 256]).ravel()
    return int(np.searchsorted(np.cumsum(histogram), luma.size // 2, side="right"))


def marks(m):
    """Low and high mark of the median."""
    return (0 if m == 0 else (2 * m - 1) // 3), min(255, 4 * m // 3)


class Edges:
    """The edge plane of a luma plane, by a kernel of side k, in memory of its own."""

    def __init__(self, shape, k):
        self.kernel = np.ones((k, k), dtype=np.uint8)
        self.thin = np.zeros(shape, dtype=np.uint8)

    def plane(self, luma, out):
        low, high = marks(median(luma))
        cv2.Canny(luma, low, high, self.thin, apertureSize=3, L2gradient=False)
        cv2.dilate(self.thin, self.kernel, out)


class Detector:
    """What a call keeps for the next one: the planes and the edge plane of the last frame."""

    def __init__(self, shape, k=None):
        self.edges = Edges(shape, k) if k else None
        # two sets of planes in turn: the frame's and the last one's
        self.edge_planes = [np.zeros(shape, dtype=np.uint8) for _ in range(2)]
        self.hsv = np.zeros(shape + (3,), dtype=np.uint8)
        self.split = [[np.zeros(shape, dtype=np.uint8) for _ in range(3)] for _ in range(2)]
        self.last = None

    def planes(self, planes, i):
        """A frame of planes, the last of which is the luma plane."""
        if self.last:
            for plane, last in zip(planes, self.last):
                cv2.norm(plane, last, cv2.NORM_L1)
        self.last = planes
        if self.edges:
            self.edges.plane(planes[-1], self.edge_planes[i % 2])
            cv2.norm(*self.edge_planes, cv2.NORM_L1)

    def bgr(self, frame, i):
        cv2.cvtColor(frame, cv2.COLOR_BGR2HSV, self.hsv)
        cv2.split(self.hsv, self.split[i % 2])
        self.planes(self.split[i % 2], i)


def calls(frames, channels, ks):
    """Whole calls."""
    shape = frames[0].shape[:2]

    def timed(name, method, inputs, k=None):
        detector = Detector(shape, k)
        call = getattr(detector, method)
        return name + (f", edges, k {k}" if k else ""), lambda i: call(inputs[i % 2], i)

    lumas = [planes[:1] for planes in channels]
    yield timed("BGR", "bgr", frames)
    yield timed("BGR", "bgr", frames, ks[0])
    yield timed("HSV", "planes", channels)
    yield timed("luma", "planes", lumas)
    for k in dict.fromkeys(ks):
        yield timed("luma", "planes", lumas, k)


def stages(frames, channels, ks):
    """Stages by their own functions, under the names that the driver has for them."""
    (a, b), shape = [planes[0] for planes in channels], frames[0].shape[:2]
    detector, edges, out = Detector(shape), Edges(shape, 13), np.zeros(shape, dtype=np.uint8)
    low, high = marks(median(a))
    canny = cv2.Canny(a, low, high)

    def planes(_):
        cv2.cvtColor(frames[0], cv2.COLOR_BGR2HSV, detector.hsv)
        cv2.split(detector.hsv, detector.split[0])

    yield "bgr_to_hsv_planes", planes
    yield "copy_plane", lambda _: cv2.copyTo(a, None, out)
    yield "mean_abs_diff", lambda _: cv2.norm(a, b, cv2.NORM_L1)
    yield "median_u8", lambda _: median(a)
    yield "edge_plane, k 13", lambda _: edges.plane(a, out)
    yield "Canny", lambda _: cv2.Canny(a, low, high, out)
    yield "dilate, k 13", lambda _: cv2.dilate(canny, edges.kernel, out)


def main():
    file, width, height, *ks = sys.argv[1:]
    cv2.setNumThreads(1)
    frames = np.fromfile(file, dtype=np.uint8).reshape(2, int(height), int(width), 3)
    channels = [[np.ascontiguousarray(frame[..., c]) for c in range(3)] for frame in frames]
    ks = [int(k) for k in ks]
    for of in (calls, stages):
        for name, call in of(frames, channels, ks):
            print(name, best(frames[0].size // 3, call))


main()
