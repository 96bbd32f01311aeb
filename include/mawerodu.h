/* mawerodu.h: finds the cuts in the video stream of one camera.
 *
 * A program hands in the frames of a stream in order, as luma, BGR or HSV bytes, each with a timestamp in microseconds.
 * The library scores how much each frame differs from the frame before and reports the timestamps of the cuts. The
 * content detector compares a score with a fixed threshold, or by a light plan with one that goes by how bright the
 * frame is, the adaptive detector with the scores around it. A list keeps the cuts at hand while the film runs.
 *
 * The functions of the library are proved. As long as the caller sees to what is listed below under "Duties of a
 * caller", a call ends, does nothing undefined and touches no memory but its stack and what it is lent, whatever the
 * values of its arguments are. Either it does exactly what the rules say (docs/RULES.md of the source tree), or it
 * returns the number of the first refusal that applies and changes nothing; a refused settings call sets the defaults.
 * The library allocates nothing, keeps no pointer and has no global data that changes.
 *
 * The inline functions of this header are plain C, and no proof speaks of them: mw_text, mw_cut, mw_score, mw_delta,
 * mw_sum, mw_count and those of struct mw_memory.
 *
 * Quick start (this is checked: examples/run of the source tree compiles and runs it):
 *
 *     struct mw_content state;
 *     struct mw_memory memory;
 *     int64_t cut;
 *
 *     mw_content_new(&state, MW_LUMA_CONTENT_SETTINGS); // for BGR or HSV frames: mw_content_default(&state)
 *     if (mw_memory_init(&memory, 640, 480) != 0)
 *         return 1;
 *     while (next_frame(&luma, &ts)) { // 640 * 480 bytes, row by row, and their timestamp
 *         uint32_t number = mw_content_feed_luma(&state, &memory, luma, 640 * 480, 640, 480, 640, ts);
 *         if (number != MW_OK)
 *             fprintf(stderr, "frame refused: %s\n", mw_text(number));
 *         else if (mw_cut(&memory.answer, &cut))
 *             printf("a new clip starts at %lld\n", (long long)cut);
 *     }
 *     mw_memory_free(&memory);
 *
 * Luma frames want luma-only weights and a threshold for them, as here. With the default settings they score a third of
 * their luma difference, and next to no cut is found.
 *
 * Build it: cc film.c $(pkg-config --cflags --libs mawerodu). The library is libstation.a, for x86-64 Linux; it needs
 * nothing but memcpy, memmove and memset.
 *
 * Order of this file: version, types and sizes, numbers, duties, settings, scores, cuts, the light plan, frames,
 * readers, the list of a sitting, struct mw_memory, and last the layout of the words.
 */
#ifndef MAWERODU_H
#define MAWERODU_H

#include <stddef.h>
#include <stdint.h>
#include <stdlib.h>
#include <string.h>

#ifdef __cplusplus
extern "C" {
#endif

/* ---- Version ---- */

#define MW_VERSION_MAJOR 0
#define MW_VERSION_MINOR 5
#define MW_VERSION_PATCH 0
#define MW_VERSION ((MW_VERSION_MAJOR << 16) | (MW_VERSION_MINOR << 8) | MW_VERSION_PATCH)

/* The version of the library that is linked; MW_VERSION is that of this header. As long as the major number is 0, a
 * header and a library fit together only if their minor numbers are equal too: mw_version() >> 8 == MW_VERSION >> 8. */
uint32_t mw_version(void);

/* ---- Types and sizes ---- */

#define MW_CONTENT_WORDS 34
#define MW_ADAPTIVE_WORDS 288
#define MW_ANSWER_WORDS 13

/* The state of a detector: its settings and all that it keeps from one call to the next, except the planes of the last
 * frame, which are in the store. A settings call makes it. It holds no pointer, so it may be copied, and kept in a file
 * together with its store. To go on without the store, clear the state first. */
struct mw_content {
    uint64_t words[MW_CONTENT_WORDS];
};
struct mw_adaptive {
    uint64_t words[MW_ADAPTIVE_WORDS];
};

/* The result of an accepted frame. Read it with mw_cut, mw_score, mw_delta, mw_sum and mw_count. */
struct mw_answer {
    uint64_t words[MW_ANSWER_WORDS];
};

/* The macros above, as the library has them. */
uint64_t mw_content_words(void);
uint64_t mw_adaptive_words(void);
uint64_t mw_answer_words(void);

/* The largest width and height of a frame. */
#define MW_MAX_SIDE 4096

/* The memory that a frame call is lent, by the size of the frame: bytes of store, bytes of scratch, int32_t's of
 * magnitudes. More is accepted too. The macros are for arrays of fixed size; the functions are 0 where a side is over
 * MW_MAX_SIDE, since such a frame is refused whatever it is lent.
 *
 * The store holds the planes of the last frame: hand it to the next call as the last call left it. Before the first
 * frame its contents do not matter. Bytes of the store past the length for the frame never change.
 *
 * Scratch and magnitudes are for the time of a call alone: their contents do not matter, and an accepted call may write
 * all of the memory that is lent, past the length that the frame needs too. Different states may take turns with them,
 * but each state has a store of its own. */
#define MW_STORE_BYTES(width, height) ((size_t)4 * (width) * (height))
#define MW_SCRATCH_BYTES(width, height) \
    ((size_t)7 * (width) * (height) + (size_t)2 * ((width) > (height) ? (width) : (height)))
#define MW_MAGNITUDES(width, height) ((size_t)1 * (width) * (height))
uint64_t mw_store_bytes(uint32_t width, uint32_t height);
uint64_t mw_scratch_bytes(uint32_t width, uint32_t height);
uint64_t mw_magnitudes(uint32_t width, uint32_t height);

/* ---- The number that a call returns ----
 *
 * 0, or the number of the first refusal that applies, in this order:
 *   mw_content_new            6, 7, 8, 9, 15
 *   mw_content_new_with_plan  6, 7, 8, 9, 15, 20, 21, 22
 *   mw_adaptive_new           10, 11, 6, 7, 8, 9
 *   a frame                   15, 1, 2, 3, 4, 5, 12, 13, 14
 *   clear                     15
 *   mw_luma_median            1, 2, 3
 *   mw_list_add               15, 17, 18
 *   mw_list_remove            15, 19
 *   other list calls          15; mw_list_new refuses nothing
 * A frame or clear that is refused changes nothing: not the state, not the answer, no byte that it is lent. The answer
 * is then still that of an earlier call: do not read it. Only the feed calls, those with a struct mw_memory, empty the
 * answer first: after a refusal it has no cut and no score, and its sums and its count are 0. A list call that is
 * refused changes nothing either: not the list, no stamp, and not the memory for its result. Nor does mw_luma_median:
 * it leaves the median. Settings that are refused make a state with the default settings, and without a plan. */
enum mw_number {
    MW_OK = 0,
    MW_TOO_LARGE = 1,        /* width or height over 4,096 */
    MW_STRIDE = 2,           /* stride below width; below 3 * width for BGR */
    MW_DATA_SHORT = 3,       /* luma, BGR or hue data shorter than height * stride */
    MW_SATURATION_SHORT = 4, /* saturation plane shorter than height * stride */
    MW_VALUE_SHORT = 5,      /* value plane shorter than height * stride */
    MW_WEIGHT = 6,           /* a weight not finite, or beyond 2^20 in size */
    MW_ALL_WEIGHTS_ZERO = 7,
    MW_KERNEL = 8,           /* a set kernel size below 3 or even */
    MW_NAN = 9,              /* threshold or min_content_val is NaN */
    MW_WINDOW_ZERO = 10,     /* window_width 0 */
    MW_WINDOW_OVER_64 = 11,  /* window_width over 64 */
    MW_STORE_SHORT = 12,     /* store, scratch, magnitudes shorter than the frame needs */
    MW_SCRATCH_SHORT = 13,
    MW_MAGNITUDES_SHORT = 14,
    MW_BAD_STATE = 15,       /* words that are not a state of this detector; in mw_content_new and
                                mw_content_new_with_plan, not a filter_mode; in a list call, words and stamps that are
                                not a list */
    /* 16 is a line that the session program refuses; no function of this library returns it */
    MW_STAMP_TOO_CLOSE = 17, /* a stamp to add equals one of the list, or is closer to one than min_duration */
    MW_LIST_FULL = 18,       /* a stamp to add, to a list that holds 512 */
    MW_STAMP_ABSENT = 19,    /* a stamp to remove that is not in the list */
    MW_PLAN_SHAPE = 20,      /* a row of a plan that has another shape or whose first number exceeds its second, or more
                                than 16 rows */
    MW_PLAN_TWICE = 21,      /* a median that two rows of a plan have */
    MW_PLAN_GAP = 22         /* a median that no row of a plan has */
};

/* A number in words, for a log. */
static inline const char *mw_text(uint32_t number)
{
    switch (number) {
    case MW_OK:
        return "accepted";
    case MW_TOO_LARGE:
        return "width or height is over 4,096";
    case MW_STRIDE:
        return "stride is shorter than a row";
    case MW_DATA_SHORT:
        return "luma, BGR or hue data is too short";
    case MW_SATURATION_SHORT:
        return "saturation plane is too short";
    case MW_VALUE_SHORT:
        return "value plane is too short";
    case MW_WEIGHT:
        return "a weight is not finite, or beyond 2^20 in size";
    case MW_ALL_WEIGHTS_ZERO:
        return "all weights are zero";
    case MW_KERNEL:
        return "a set kernel size is below 3 or even";
    case MW_NAN:
        return "threshold or min_content_val is NaN";
    case MW_WINDOW_ZERO:
        return "window_width is 0";
    case MW_WINDOW_OVER_64:
        return "window_width is over 64";
    case MW_STORE_SHORT:
        return "store is too short";
    case MW_SCRATCH_SHORT:
        return "scratch is too short";
    case MW_MAGNITUDES_SHORT:
        return "magnitudes are too short";
    case MW_BAD_STATE:
        return "not a valid state or list, or not a filter mode";
    case MW_STAMP_TOO_CLOSE:
        return "the stamp equals one of the list, or is closer to one than min_duration";
    case MW_LIST_FULL:
        return "the list holds 512 stamps";
    case MW_STAMP_ABSENT:
        return "the stamp is not in the list";
    case MW_PLAN_SHAPE:
        return "a row of the plan has another shape or starts past its end, or there are more than 16 rows";
    case MW_PLAN_TWICE:
        return "two rows of the plan have the same median";
    case MW_PLAN_GAP:
        return "a median has no row in the plan";
    default:
        return "unknown number";
    }
}

/* ---- Duties of a caller ----
 *
 * The proofs assume these, and no call can check them. Memory is the state, the answer, the planes, the store, the
 * scratch and the magnitudes; in a list call it is the list, its stamps and the result (nearest, span or clip). The
 * plan of a settings call, the text that mw_content_plan writes (MW_PLAN_TEXT bytes) and a median are memory too.
 *   - Pointers: none is NULL, even where its length is 0. Each is aligned for its type, and points to a whole struct or
 *     to at least as many elements as the length after it says. Lengths count elements: bytes, int32_t's of magnitudes,
 *     int64_t's of stamps.
 *   - Overlap: no two of state, answer, store, scratch and magnitudes overlap, nor does one of them overlap a plane.
 *     Planes are only read, and may overlap each other. No two of list, stamps and result overlap. A state
 *     overlaps neither a plan nor the text of one, and a median does not overlap its plane.
 *   - Others: until the call returns, nobody else writes to any of the memory, planes included, or reads what the call
 *     writes.
 *   - Floating point: results are rounded to nearest, floating-point exceptions are masked, and denormal numbers are
 *     neither flushed to zero (FTZ) nor read as zero (DAZ). A C program starts so, unless gcc or clang link it with
 *     -ffast-math. With FTZ or DAZ results may differ: a weight of 5e-324 beside three of 0 is then refused by 7, and
 *     should be accepted. An exception that is not masked ends a program that has no handler for it.
 *   - Stack: a frame call takes up to 17 KB (content; 4 KB with edges off and without a light plan) or 23 KB
 *     (adaptive), mw_luma_median up to 15 KB, any other call of a content detector up to 2 KB, of an adaptive detector
 *     up to 19 KB, and a list call under 1 KB. This is measured, and not proved.
 *
 * Threads: there is no global data that changes, so calls on different states may run at the same time, each with an
 * answer, a store, a scratch and magnitudes of its own. They may read the same planes. Calls on different lists may run
 * at the same time too, each with stamps and a result of its own; calls that only read a list may share it and its
 * stamps. */

/* ---- Settings ----
 *
 * Each of these makes a fresh state. Only mw_content_new, mw_content_new_with_plan (see "The light plan") and
 * mw_adaptive_new can refuse; they then make a state with the default settings, and return the number.
 *
 *   setting           default      range, and what it is
 *   threshold         content 27   any but NaN. The score from which on a frame may be a cut
 *                     adaptive 3   any but NaN. The least ratio of a cut; ratios are at most 255
 *   min_duration      1000000      any. The least time from one cut to the next, in microseconds; where this holds is
 *                                  said below, under "Cuts"
 *   window_width      2            1 to 64. How many scores on each side a score is compared with
 *   min_content_val   15           any but NaN. The least score of a cut
 *   hue, saturation,
 *   luma, edges       1, 1, 1, 0   finite, up to 2^20 in size, negative too, not all zero. The weights in the score; an
 *                                  edge weight of 0 switches edges off, which saves most of the time of a call
 *   filter_mode       MW_MERGE     MW_MERGE or MW_SUPPRESS. How cuts are kept min_duration apart
 *   has_kernel        0            0: the kernel's size goes by the frame's size, and kernel_size is not looked at;
 *                                  any other number: it is kernel_size
 *   kernel_size                    odd, from 3 on, if has_kernel is on. The side of the square to which the edge
 *                                  pixels are widened; by the frame's size it is 7 at 640 x 480, 13 at 1920 x 1080
 *   initial_cut       1            any other number than 0: the first frame with a score (adaptive: the first that is
 *                                  judged) may be a cut; 0: min_duration is counted from that frame on */

enum mw_filter_mode { MW_MERGE = 0, MW_SUPPRESS = 1 };

/* The defaults, as arguments. The weights are four arguments, the kernel is two. */
#define MW_DEFAULT_CONTENT_THRESHOLD 27.0
#define MW_DEFAULT_ADAPTIVE_THRESHOLD 3.0
#define MW_DEFAULT_MIN_DURATION 1000000
#define MW_DEFAULT_WINDOW_WIDTH 2
#define MW_DEFAULT_MIN_CONTENT_VAL 15.0
#define MW_DEFAULT_WEIGHTS 1.0, 1.0, 1.0, 0.0
#define MW_DEFAULT_KERNEL 0, 0

/* For luma frames, which have no hue and no saturation. With these weights the score is the luma difference itself, and
 * the threshold of the content detector is a luma difference too. That of the adaptive detector is a ratio and stays 3;
 * its min_content_val of 15 is then a luma difference of 15. With the default weights a score is a third of the luma
 * difference: 27 asks for a luma difference of 81, and 15 for one of 45. */
#define MW_LUMA_WEIGHTS 0.0, 0.0, 1.0, 0.0
#define MW_LUMA_THRESHOLD 27.0

/* All arguments after the state, for luma frames: mw_content_new(&state, MW_LUMA_CONTENT_SETTINGS) and
 * mw_adaptive_new(&state, MW_LUMA_ADAPTIVE_SETTINGS). They are not refused. The rest is as by default; to change it,
 * write the arguments out. */
#define MW_LUMA_CONTENT_SETTINGS \
    MW_LUMA_THRESHOLD, MW_DEFAULT_MIN_DURATION, MW_LUMA_WEIGHTS, MW_MERGE, MW_DEFAULT_KERNEL, 1
#define MW_LUMA_ADAPTIVE_SETTINGS \
    MW_DEFAULT_ADAPTIVE_THRESHOLD, MW_DEFAULT_MIN_DURATION, MW_DEFAULT_WINDOW_WIDTH, MW_DEFAULT_MIN_CONTENT_VAL, \
        MW_LUMA_WEIGHTS, MW_DEFAULT_KERNEL, 1

uint32_t mw_content_default(struct mw_content *state);
uint32_t mw_content_new(struct mw_content *state, double threshold, uint64_t min_duration, double hue,
                        double saturation, double luma, double edges, uint32_t filter_mode, uint32_t has_kernel,
                        uint32_t kernel_size, uint32_t initial_cut);

uint32_t mw_adaptive_default(struct mw_adaptive *state);
uint32_t mw_adaptive_new(struct mw_adaptive *state, double threshold, uint64_t min_duration, uint32_t window_width,
                         double min_content_val, double hue, double saturation, double luma, double edges,
                         uint32_t has_kernel, uint32_t kernel_size, uint32_t initial_cut);

/* ---- Scores ----
 *
 * A frame has four planes, each with one byte for a pixel: hue, saturation, luma and edges. A BGR frame is converted to
 * hue (0 to 179, two degrees each), saturation and value, the largest of B, G and R. The luma of a BGR or HSV frame is
 * its value. A luma frame has hue and saturation 0. The edge plane is 255 near an edge and 0 elsewhere; it is made only
 * if the edge weight is not 0. A component is the mean absolute difference, 0 to 255, between one plane of a frame and
 * that of the frame before; it is 0 for edges that are off. With the components h, s, l, e and the weights of the
 * settings, the score of a frame is
 *
 *     (h * hue + s * saturation + l * luma + e * edges) / (|hue| + |saturation| + |luma| + |edges|)
 *
 * in double, from left to right, each step rounded once.
 *
 * Sums and count: an answer also has the whole numbers that its components come from. For each plane it has the sum of
 * the absolute differences of all pixels, at most 255 * 2^24, and for all four planes one count, the number of pixels,
 * width * height. A component is its sum / count, one division in double, or 0 where the count is 0. So the five
 * numbers and the weights give the components and the score again, to the last bit. This makes two stations comparable:
 * where their five numbers for a frame are equal, equal weights give equal components, and equal scores if both have
 * one; where a number differs, that is not rounding: the frame differs, or the frame before it (its planes in the
 * store, or whether there was one of this size), or the settings for edges.
 *
 * All five are 0 for a frame that has no score (see below), and for a frame that has no pixels. The sum of edges that
 * are off is 0. A refused frame has no sums: a plain call leaves the answer as it was, a feed call makes all five 0.
 *
 * Luma frames with the default weights: h and s are 0, so the score is a third of the luma difference, and the default
 * threshold of 27 is reached at a luma difference of 81. With MW_LUMA_WEIGHTS it is reached at 27. So make the state
 * for luma frames with MW_LUMA_CONTENT_SETTINGS or MW_LUMA_ADAPTIVE_SETTINGS, which have these weights.
 *
 * No score: the first frame after a settings call or clear has none, nor has a frame of another width or height than
 * the frame before. It starts a stretch, and is never a cut; all other frames have a score. Refused frames do not
 * count.
 *
 * Change of size: the store is written with the planes of the new frame, and nothing is compared with the old ones. In
 * the content detector the filter starts afresh: the last cut and a pending merge are forgotten, so the next cut may
 * come less than min_duration after the last one. In the adaptive detector the window, the last cut, the ratio and the
 * target stay: scores from before and after the change are judged together, and cuts stay min_duration apart. */

/* ---- Cuts ----
 *
 * The timestamp of a cut is that of the first frame of the new clip. A frame is above if its score is at least the
 * threshold; with a light plan, at least the threshold that the plan has for it. The seed is the timestamp of the first
 * frame with a score in a stretch (adaptive: of the first frame that is judged after a settings call or clear), less
 * min_duration if initial_cut is on; it stops at -2^63. It stands for the last cut, or for the last frame above, as
 * long as there is none. A timestamp is at least min_duration after another if their difference in whole numbers is;
 * nothing wraps.
 *
 * Content, MW_SUPPRESS: a frame above is a cut if it is at least min_duration after the last cut; else it is dropped.
 *
 * Content, MW_MERGE: each frame with a score is first held against the last frame above, or the seed: it is late if it
 * is at least min_duration after that. Then, if it is above, it is itself the last frame above.
 *   no merge is pending   A frame that is above and late is a cut. One that is above and not late starts a merge, if
 *                         the stretch has a cut already.
 *   a merge is pending    A frame that is not above, and late, ends the merge if the last frame above is at least
 *                         min_duration after the frame that started it, or min_duration is 0. The last frame above is
 *                         then the cut. No other frame is a cut or ends the merge; frames above join it.
 * So the cut of a merge has the timestamp of an earlier frame than the one that reports it. A merge that is pending at
 * the end of the film, at a clear or at a change of size is lost: its cut is not reported. If its threshold is over 0,
 * the last frame of a film can be fed once more, with a timestamp at least min_duration after the last frame above: its
 * score is 0, so it is not above and is late, and it ends a merge that is long enough.
 *
 * Adaptive: the window is the last 2 * window_width + 1 scores, and the target is the one in its middle. Once the
 * window is full, each frame with a score judges the target:
 *   average  of the other scores: (sum of the window - target) / (2 * window_width), from a running sum
 *   ratio    if the average is less than 1e-5 in size: 255 if the target is at least min_content_val, else 0;
 *            otherwise target / average, at most 255
 *   cut      if the ratio is at least the threshold, the target at least min_content_val, and the target's frame at
 *            least min_duration after the last cut
 * A cut has the timestamp of the target's frame, and is reported window_width scores later. Of the frames with a score,
 * the first and the last window_width from one clear to the next are never judged.
 *
 * Where cuts are min_duration apart: in Suppress within each stretch; in the adaptive detector from one clear to the
 * next, over changes of size too; both whatever the timestamps are, so after a clock was set back no frame is a cut
 * until its timestamp is min_duration after the last cut. In Merge within each stretch in which the timestamps of the
 * frames with a score never fall; where they fall, a cut may be nearer to the cut before, or earlier. After a clock was
 * set back, clear. */

/* ---- The light plan ----
 *
 * Rooms differ: with less light all differences are smaller, so a dim room needs a lower threshold. A light plan gives
 * the content detector a threshold for each brightness of a frame. It is a text of rows
 *
 *     from,to,threshold
 *
 * of whole numbers from 0 to 255, in decimal digits without leading zeros. A line feed follows each row, the last one
 * too. Nothing else may stand there: no blank, no sign, no quote, no carriage return, no empty row and no heading. A
 * frame whose luma median is from `from` to `to`, both counted, is above if its score is at least this threshold. That
 * takes the place of the set threshold in all that is said under "Cuts". There are at most 16 rows, in any order, and
 * each median from 0 to 255 has to have exactly one. The empty text is no plan: the set threshold stands.
 *
 * The luma median of a frame is the value in the middle of its luma plane: that at place n / 2, rounded down and
 * counted from 0, when the n pixels are sorted. So about half of the pixels are darker. It is 255 for a frame without
 * pixels. The luma of a BGR or HSV frame is its value. The frame's own median counts and not that of the frame before:
 * where a bright scene gives way to a dim one, the row of the dim one decides.
 *
 * How to write a plan:
 *   1. Take a film of the room in each light that it has, by day, by night, with and without the lamp, and with all
 *      that is not a cut: hands, shadows, the noise of the camera.
 *   2. Look at the median and the score of its frames. A luma plane has its median from mw_luma_median. Of any frame
 *      that was accepted, width * height = n bytes of luma are the third n bytes of the store:
 *          mw_luma_median(memory.store + 2 * n, n, width, height, width, &median)
 *      Expect medians of about 10 to 60 in a dim room and 100 to 200 in a bright one.
 *   3. Write a row for each light. Its threshold lies above the scores of frames that are not a cut, and below those of
 *      a new scene. Let rows meet where no light has its median, since the median goes up and down a little from frame
 *      to frame. One row starts at 0, one ends at 255, and every other one starts right after another ends.
 * A room whose dim medians lie around 40 and whose bright ones lie around 170:
 *
 *     static const uint8_t plan[] = "0,99,8\n100,255,27\n";
 *     number = mw_content_new_with_plan(&state, MW_LUMA_CONTENT_SETTINGS, plan, sizeof plan - 1);
 *
 * What else a plan does, and does not do:
 *   - The one row 0,255,t is the same as the threshold t without a plan: the same answers and stores, and the same
 *     states but for the settings that they hold. This is proved, as is that cuts are min_duration apart under any
 *     plan, where they are without one.
 *   - The set threshold is still checked (9) and kept in the state, and it is not used.
 *   - The plan is part of the settings: clear and a change of size keep it, and it is kept in the state's words.
 *   - The median is counted only where a plan is given, in one pass over the luma plane.
 *   - The adaptive detector has no plan: its threshold is a ratio to the scores around. */

/* The most bytes of a plan's text, those of 16 rows 255,255,255, and the most rows. A longer text is refused by 20. */
#define MW_PLAN_TEXT 192
#define MW_PLAN_ROWS 16

/* Makes a fresh state, as mw_content_new does, with the plan that a text of plan_len bytes says. The text may be any
 * bytes, and no zero byte ends it. Refused by 6 to 9 and 15 as mw_content_new; then by 20, 21 or 22, each judged of the
 * whole text: 20 if a row has another shape (a number over 255 and an empty row are another shape too, and so is a last
 * row without its line feed), a row's first number exceeds its second, or there are more than 16 rows; 21 if two rows
 * have the same median; 22 if some median from 0 to 255 has no row. A text with two of these faults gives the smaller
 * number. */
uint32_t mw_content_new_with_plan(struct mw_content *state, double threshold, uint64_t min_duration, double hue,
                                  double saturation, double luma, double edges, uint32_t filter_mode,
                                  uint32_t has_kernel, uint32_t kernel_size, uint32_t initial_cut, const uint8_t *plan,
                                  size_t plan_len);

/* Writes the text of the plan that a state holds to the start of `text`, and returns its length; the bytes after it
 * stay. It is the text that the settings call took, row by row. The length is 0 if there is no plan. It refuses
 * nothing: of words that are not a state it writes nothing, and the length is 0; of words whose plan calls refuse by 15
 * it writes the rows that they have, 16 at most. No zero byte is written. */
uint32_t mw_content_plan(const struct mw_content *state, uint8_t text[MW_PLAN_TEXT]);

/* The luma median of a luma frame, in *median: row r starts at byte r * stride, and height * stride bytes are needed,
 * as in a frame call. Refused by 1, 2 or 3; *median then stays as it was. */
uint32_t mw_luma_median(const uint8_t *plane, size_t plane_len, uint32_t width, uint32_t height, uint32_t stride,
                        uint8_t *median);

/* ---- Frames ----
 *
 * Row r starts at byte r * stride, and height * stride bytes are needed, the padding of the last row included. A row
 * has width bytes; in BGR, 3 * width bytes, the pixels' B, G, R. An HSV frame is three planes of one stride, with a hue
 * of 0 to 179 (a larger one is taken as it is). A width or height of 0 is accepted: no pixels, all components 0. ts is
 * the timestamp in microseconds.
 *
 * The calls with a struct mw_memory (below) take eight arguments, for HSV ten. */

/* Luma frames want luma-only weights and a threshold for them, MW_LUMA_CONTENT_SETTINGS: with the default weights the
 * score is a third of the luma difference. */
uint32_t mw_content_luma(struct mw_content *state, struct mw_answer *answer, const uint8_t *plane, size_t plane_len,
                         uint32_t width, uint32_t height, uint32_t stride, int64_t ts, uint8_t *store, size_t store_len,
                         uint8_t *scratch, size_t scratch_len, int32_t *magnitudes, size_t magnitudes_len);

uint32_t mw_content_bgr(struct mw_content *state, struct mw_answer *answer, const uint8_t *pixels, size_t pixels_len,
                        uint32_t width, uint32_t height, uint32_t stride, int64_t ts, uint8_t *store, size_t store_len,
                        uint8_t *scratch, size_t scratch_len, int32_t *magnitudes, size_t magnitudes_len);
uint32_t mw_content_hsv(struct mw_content *state, struct mw_answer *answer, const uint8_t *hue, size_t hue_len,
                        const uint8_t *saturation, size_t saturation_len, const uint8_t *value, size_t value_len,
                        uint32_t width, uint32_t height, uint32_t stride, int64_t ts, uint8_t *store, size_t store_len,
                        uint8_t *scratch, size_t scratch_len, int32_t *magnitudes, size_t magnitudes_len);

/* Luma frames want luma-only weights, MW_LUMA_ADAPTIVE_SETTINGS: with the default weights the score is a third of the
 * luma difference, and a min_content_val of 15 asks for one of 45. */
uint32_t mw_adaptive_luma(struct mw_adaptive *state, struct mw_answer *answer, const uint8_t *plane, size_t plane_len,
                          uint32_t width, uint32_t height, uint32_t stride, int64_t ts, uint8_t *store,
                          size_t store_len, uint8_t *scratch, size_t scratch_len, int32_t *magnitudes,
                          size_t magnitudes_len);

uint32_t mw_adaptive_bgr(struct mw_adaptive *state, struct mw_answer *answer, const uint8_t *pixels, size_t pixels_len,
                         uint32_t width, uint32_t height, uint32_t stride, int64_t ts, uint8_t *store, size_t store_len,
                         uint8_t *scratch, size_t scratch_len, int32_t *magnitudes, size_t magnitudes_len);
uint32_t mw_adaptive_hsv(struct mw_adaptive *state, struct mw_answer *answer, const uint8_t *hue, size_t hue_len,
                         const uint8_t *saturation, size_t saturation_len, const uint8_t *value, size_t value_len,
                         uint32_t width, uint32_t height, uint32_t stride, int64_t ts, uint8_t *store, size_t store_len,
                         uint8_t *scratch, size_t scratch_len, int32_t *magnitudes, size_t magnitudes_len);

/* Forgets the stream: the settings stay, and the next frame is a first frame. */
uint32_t mw_content_clear(struct mw_content *state);
uint32_t mw_adaptive_clear(struct mw_adaptive *state);

/* ---- Readers ---- */

/* Of an answer, after a frame call that returned 0: whether it reports a cut, and then its timestamp in *ts. */
static inline int mw_cut(const struct mw_answer *answer, int64_t *ts)
{
    if (answer->words[0] != 1)
        return 0;
    memcpy(ts, &answer->words[1], sizeof *ts);
    return 1;
}

/* Whether the frame has a score, and then the score in *score. */
static inline int mw_score(const struct mw_answer *answer, double *score)
{
    if (answer->words[2] != 1)
        return 0;
    memcpy(score, &answer->words[3], sizeof *score);
    return 1;
}

/* A component of the frame, by its place: 0 hue, 1 saturation, 2 luma, 3 edges. 0.0 if the frame has no score, and at
 * any other place. */
static inline double mw_delta(const struct mw_answer *answer, uint32_t place)
{
    double delta = 0.0;
    if (place < 4)
        memcpy(&delta, &answer->words[4 + place], sizeof delta);
    return delta;
}

/* The whole sum of the differences of a plane, by its place: 0 hue, 1 saturation, 2 luma, 3 edges. 0 if the frame has
 * no score, and at any other place. */
static inline uint32_t mw_sum(const struct mw_answer *answer, uint32_t place)
{
    return place < 4 ? (uint32_t)answer->words[8 + place] : 0;
}

/* The number of pixels that each sum is over: a component is its sum / count, or 0.0 where the count is 0. The count is
 * 0 if the frame has no score. */
static inline uint32_t mw_count(const struct mw_answer *answer)
{
    return (uint32_t)answer->words[12];
}

/* Of a state, as the last accepted call left it: score and components of the last frame; in the adaptive detector also
 * ratio and score of the last target. Each has_ function returns 1 or 0, and the value is 0.0 where there is none. The
 * place of a component is 0 for hue, 1 for saturation, 2 for luma, 3 for edges; any other place gives 0.0. Readers
 * refuse nothing; words that are not a state (see the end of this file) have none of these. */
uint32_t mw_content_has_score(const struct mw_content *state);
double mw_content_score(const struct mw_content *state);
uint32_t mw_content_has_components(const struct mw_content *state);
double mw_content_component(const struct mw_content *state, uint32_t place);

uint32_t mw_adaptive_has_score(const struct mw_adaptive *state);
double mw_adaptive_score(const struct mw_adaptive *state);
uint32_t mw_adaptive_has_components(const struct mw_adaptive *state);
double mw_adaptive_component(const struct mw_adaptive *state, uint32_t place);
uint32_t mw_adaptive_has_ratio(const struct mw_adaptive *state);
double mw_adaptive_ratio(const struct mw_adaptive *state);
uint32_t mw_adaptive_has_target(const struct mw_adaptive *state);
double mw_adaptive_target(const struct mw_adaptive *state);

/* ---- The list of a sitting ----
 *
 * A list keeps the cuts of a sitting at hand while the film runs: up to 512 stamps (timestamps in microseconds) in
 * strictly rising order, each at least min_duration after the one before, in memory that the caller lends. Stamps can
 * be added and removed in any order, and looked up: the one nearest to a given stamp, those within a span, and the
 * number of the clip that a stamp is in.
 *
 *     struct mw_list list;
 *     int64_t stamps[MW_LIST_PLACES];
 *
 *     mw_list_new(&list, MW_DEFAULT_MIN_DURATION);
 *     ... after each frame that is accepted:
 *     if (mw_cut(&memory.answer, &cut)) {
 *         number = mw_list_add(&list, stamps, MW_LIST_PLACES, cut);
 *         if (number != MW_OK)
 *             fprintf(stderr, "cut not listed: %s\n", mw_text(number));
 *     }
 *
 * The cuts of a detector: with MW_SUPPRESS and a min_duration of at least 1, the cuts of one stretch can be added, in
 * the order in which they are reported, to an empty list of the same min_duration. None of them is refused by 17, and
 * by 18 only those from the 513th on. The same holds of the cuts of an adaptive detector from clear to clear. This is
 * proved. Other cuts may be refused by 17: with a min_duration of 0 two cuts can be equal, and those of two stretches,
 * or in MW_MERGE of one whose timestamps fall, can be closer to each other than min_duration. A list with a
 * min_duration of 0 or 1 takes all stamps that differ, up to 512. When 18 is returned, keep the stamps elsewhere and
 * empty the list, or go on with another one.
 *
 * list and stamps belong together: hand both to the next call as the last call left them. At least MW_LIST_PLACES
 * int64_t's of stamps are needed; more are accepted, and those from place MW_LIST_PLACES on are never read or written.
 * Before the first call their contents do not matter: mw_list_new neither reads nor writes them. The stamps of the list
 * are in the first count places; count is what mw_list_clip gives for INT64_MAX. The places after them keep their
 * contents, except that a place that becomes free is set to 0. A list holds no pointer, so it may be copied, and kept
 * in a file together with its stamps.
 *
 * Each call on a list but mw_list_new first checks it, also one that only reads it. 15 (MW_BAD_STATE) is returned for
 * words of another version, a count over 512, a stamps_len under 512, and stamps in the first count places that do not
 * rise or are closer to each other than min_duration. A list that mw_list_new made is never refused by 15, as long as
 * it and its memory, of at least 512 places, are handed back as they were left. This is proved too.
 *
 * Differences are taken in whole numbers, up to 2^64 - 1; nothing wraps. */

#define MW_LIST_WORDS 3
#define MW_LIST_PLACES 512

/* A list: its min_duration and its count. The stamps themselves are in the memory that is lent beside it. */
struct mw_list {
    uint64_t words[MW_LIST_WORDS];
};

/* The macros above, as the library has them. */
uint64_t mw_list_words(void);
uint64_t mw_list_places(void);

/* Makes a list without stamps. It refuses nothing: any min_duration will do. */
void mw_list_new(struct mw_list *list, uint64_t min_duration);

/* Adds a stamp in its place: the stamps after it move on by one. Refused by 15; by 17 if it equals a stamp of the list,
 * or is closer to one than min_duration, before or after it; by 18 if the list holds 512. */
uint32_t mw_list_add(struct mw_list *list, int64_t *stamps, size_t stamps_len, int64_t ts);

/* Removes a stamp: the stamps after it move back by one, and the place that becomes free is set to 0. Refused by 15; by
 * 19 if it is not in the list. */
uint32_t mw_list_remove(struct mw_list *list, int64_t *stamps, size_t stamps_len, int64_t ts);

/* Removes all stamps: their places are set to 0. min_duration stays. Refused by 15. */
uint32_t mw_list_empty(struct mw_list *list, int64_t *stamps, size_t stamps_len);

/* The stamp of the list that is nearest to ts, the earlier one of two that are as near. Refused by 15. */
struct mw_nearest {
    uint64_t has; /* 1; in a list without stamps 0, and ts is 0 */
    int64_t ts;
};
uint32_t mw_list_nearest(const struct mw_list *list, const int64_t *stamps, size_t stamps_len, int64_t ts,
                         struct mw_nearest *nearest);

/* The stamps of the list that are not before from and not after to. Both are 0 if there is none, as when from is later
 * than to. Refused by 15. */
struct mw_span {
    uint64_t first; /* the place of the first of them, from 0 */
    uint64_t count; /* how many there are: stamps[first] to stamps[first + count - 1] */
};
uint32_t mw_list_span(const struct mw_list *list, const int64_t *stamps, size_t stamps_len, int64_t from, int64_t to,
                      struct mw_span *span);

/* The clip that ts is in: how many stamps of the list are at or before it. Clip 0 is what comes before the first cut; a
 * later one starts at stamps[clip - 1]. Refused by 15. */
uint32_t mw_list_clip(const struct mw_list *list, const int64_t *stamps, size_t stamps_len, int64_t ts,
                      uint64_t *clip);

/* ---- All memory of a frame call in one struct ----
 *
 * One struct mw_memory belongs to one state, since it has the store. These functions are plain C on top of the library:
 * no proof speaks of them. */
struct mw_memory {
    struct mw_answer answer; /* of the last frame that was fed; if that was refused: no cut, no score, sums of 0 */
    uint8_t *store;
    uint8_t *scratch;
    int32_t *magnitudes;
    size_t store_len;
    size_t scratch_len;
    size_t magnitudes_len;
};

/* Frees what mw_memory_init allocated, and leaves it empty: NULL, and lengths of 0. It may be freed again. A frame that
 * is fed to it is judged by the library as with memory of length 0: a frame with pixels is refused, by 12 if by nothing
 * before. */
static inline void mw_memory_free(struct mw_memory *memory)
{
    free(memory->store);
    free(memory->scratch);
    free(memory->magnitudes);
    memory->store = NULL;
    memory->scratch = NULL;
    memory->magnitudes = NULL;
    memory->store_len = 0;
    memory->scratch_len = 0;
    memory->magnitudes_len = 0;
}

/* Allocates memory for frames up to this width and this height. Returns 0; or 1 where a side is over MW_MAX_SIDE or
 * there is not enough memory, and leaves it empty. What *memory held before is not freed. */
static inline int mw_memory_init(struct mw_memory *memory, uint32_t width, uint32_t height)
{
    memset(&memory->answer, 0, sizeof memory->answer);
    memory->store_len = (size_t)mw_store_bytes(width, height);
    memory->scratch_len = (size_t)mw_scratch_bytes(width, height);
    memory->magnitudes_len = (size_t)mw_magnitudes(width, height);
    /* one element more, so that a length of 0 is not NULL either */
    memory->store = (uint8_t *)calloc(memory->store_len + 1, sizeof *memory->store);
    memory->scratch = (uint8_t *)calloc(memory->scratch_len + 1, sizeof *memory->scratch);
    memory->magnitudes = (int32_t *)calloc(memory->magnitudes_len + 1, sizeof *memory->magnitudes);
    if (width <= MW_MAX_SIDE && height <= MW_MAX_SIDE && memory->store != NULL && memory->scratch != NULL &&
        memory->magnitudes != NULL)
        return 0;
    mw_memory_free(memory);
    return 1;
}

/* For the feed calls alone: what a frame call takes after its timestamp, and places to point to instead of NULL. */
struct mw_lent {
    uint8_t *store;
    uint8_t *scratch;
    int32_t *magnitudes;
    size_t store_len;
    size_t scratch_len;
    size_t magnitudes_len;
    uint8_t no_store;
    uint8_t no_scratch;
    int32_t no_magnitudes;
};
#define MW_LENT(lent) \
    (lent).store, (lent).store_len, (lent).scratch, (lent).scratch_len, (lent).magnitudes, (lent).magnitudes_len

/* For the feed calls alone: empties the answer and lends the memory. What is NULL is lent as a place of *lent with a
 * length of 0, so that the library decides the number. */
static inline void mw_memory_lend(struct mw_memory *memory, struct mw_lent *lent)
{
    memset(&memory->answer, 0, sizeof memory->answer);
    memset(lent, 0, sizeof *lent);
    lent->store = memory->store != NULL ? memory->store : &lent->no_store;
    lent->store_len = memory->store != NULL ? memory->store_len : 0;
    lent->scratch = memory->scratch != NULL ? memory->scratch : &lent->no_scratch;
    lent->scratch_len = memory->scratch != NULL ? memory->scratch_len : 0;
    lent->magnitudes = memory->magnitudes != NULL ? memory->magnitudes : &lent->no_magnitudes;
    lent->magnitudes_len = memory->magnitudes != NULL ? memory->magnitudes_len : 0;
}

/* The feed calls: the frame calls, with memory->answer for the answer, which they empty first. The three planes of an
 * HSV frame have plane_len bytes each. */

/* Luma frames want luma-only weights and a threshold for them, MW_LUMA_CONTENT_SETTINGS: see mw_content_luma. */
static inline uint32_t mw_content_feed_luma(struct mw_content *state, struct mw_memory *memory, const uint8_t *plane,
                                            size_t plane_len, uint32_t width, uint32_t height, uint32_t stride,
                                            int64_t ts)
{
    struct mw_lent lent;
    mw_memory_lend(memory, &lent);
    return mw_content_luma(state, &memory->answer, plane, plane_len, width, height, stride, ts, MW_LENT(lent));
}

static inline uint32_t mw_content_feed_bgr(struct mw_content *state, struct mw_memory *memory, const uint8_t *pixels,
                                           size_t pixels_len, uint32_t width, uint32_t height, uint32_t stride,
                                           int64_t ts)
{
    struct mw_lent lent;
    mw_memory_lend(memory, &lent);
    return mw_content_bgr(state, &memory->answer, pixels, pixels_len, width, height, stride, ts, MW_LENT(lent));
}

static inline uint32_t mw_content_feed_hsv(struct mw_content *state, struct mw_memory *memory, const uint8_t *hue,
                                           const uint8_t *saturation, const uint8_t *value, size_t plane_len,
                                           uint32_t width, uint32_t height, uint32_t stride, int64_t ts)
{
    struct mw_lent lent;
    mw_memory_lend(memory, &lent);
    return mw_content_hsv(state, &memory->answer, hue, plane_len, saturation, plane_len, value, plane_len, width,
                          height, stride, ts, MW_LENT(lent));
}

/* Luma frames want luma-only weights, MW_LUMA_ADAPTIVE_SETTINGS: see mw_adaptive_luma. */
static inline uint32_t mw_adaptive_feed_luma(struct mw_adaptive *state, struct mw_memory *memory,
                                             const uint8_t *plane, size_t plane_len, uint32_t width, uint32_t height,
                                             uint32_t stride, int64_t ts)
{
    struct mw_lent lent;
    mw_memory_lend(memory, &lent);
    return mw_adaptive_luma(state, &memory->answer, plane, plane_len, width, height, stride, ts, MW_LENT(lent));
}

static inline uint32_t mw_adaptive_feed_bgr(struct mw_adaptive *state, struct mw_memory *memory,
                                            const uint8_t *pixels, size_t pixels_len, uint32_t width, uint32_t height,
                                            uint32_t stride, int64_t ts)
{
    struct mw_lent lent;
    mw_memory_lend(memory, &lent);
    return mw_adaptive_bgr(state, &memory->answer, pixels, pixels_len, width, height, stride, ts, MW_LENT(lent));
}

static inline uint32_t mw_adaptive_feed_hsv(struct mw_adaptive *state, struct mw_memory *memory, const uint8_t *hue,
                                            const uint8_t *saturation, const uint8_t *value, size_t plane_len,
                                            uint32_t width, uint32_t height, uint32_t stride, int64_t ts)
{
    struct mw_lent lent;
    mw_memory_lend(memory, &lent);
    return mw_adaptive_hsv(state, &memory->answer, hue, plane_len, saturation, plane_len, value, plane_len, width,
                           height, stride, ts, MW_LENT(lent));
}

/* ---- Layout of the words ----
 *
 * For those who look into a state or a list, or keep it in a file; a program that calls the functions above does not
 * need it. One word for each field: a double as its bits (a NaN, of which there is none in a state that a run of calls
 * made, is written as 0x7ff8000000000000), a timestamp in two's complement. A `has` is 0 or 1; what follows a `has` of
 * 0 is written as 0, and is not looked at.
 *
 *   answer
 *     0, 1             has, timestamp of the cut
 *     2, 3             has, score
 *     4-7              components: hue, saturation, luma, edges
 *     8-11             sums: hue, saturation, luma, edges
 *     12               count
 *
 *   list
 *     0                version of the layout: 0x4d574c4953543031 (MWLIST01)
 *     1                min_duration
 *     2                count
 *
 *   content  adaptive
 *       0        0     version of the layout: 0x4d57434f4e543032 (MWCONT02) or 0x4d57414441503031 (MWADAP01)
 *       1        1     threshold
 *       2        2     min_duration
 *       -     3, 4     window_width, min_content_val
 *     3-6      5-8     weights: hue, saturation, luma, edges
 *       7        -     filter_mode
 *    8, 9    9, 10     has, kernel_size
 *      10       11     initial_cut, 0 or 1
 *      11       12     1 if there is a frame before, else 0
 *  12, 13   13, 14     has, last score
 *      14       15     has the last components
 *   15-18    16-19     last components: hue, saturation, luma, edges
 *  19, 20   20, 21     width, height
 *  21, 22        -     has, last cut (Suppress) or last frame above (Merge), or the seed
 *      23        -     1 if a merge may start, since there was a cut; else 0
 *      24        -     1 if a merge is pending, else 0
 *  25, 26        -     has, start of the last merge
 *      27        -     number of rows of the light plan, 0 if there is none
 *   28-29        -     the first median of each row, 16 bytes
 *   30-31        -     the last median of each row, in the same order
 *   32-33        -     the threshold of each row, in the same order
 *       -   22, 23     number of scores in the window, their running sum
 *       -   24, 25     has, last cut or the seed
 *       -   26, 27     has, last ratio
 *       -   28, 29     has, score of the last target
 *       -   30-158     timestamps of the window, the oldest first; places past the number of scores are not used
 *       -  159-287     scores of the window, in the same order
 *
 * The 16 bytes of a plan are eight to a word, the first one the lowest; those past the number of rows are written as 0,
 * and are not looked at.
 *
 * 15 is returned for words that are not a state: another version; a `has`, a 0-or-1 field or filter_mode that is over
 * 1; a window_width, width, height or number of rows over 2^32 - 1; a kernel_size over 2^32 - 1 whose `has` is 1. And
 * for a state with one of these, which no run of calls makes: settings that would be refused (a plan too, of more than
 * 16 rows, by a row whose first median exceeds its last, or by a median with two rows or with none), a width or height
 * over 4,096, more than 2 * window_width + 1 scores in the window, a merge that is pending without a start or a last
 * frame above. What is not a list is said above, under "The list of a sitting". */

#ifdef __cplusplus
}
#endif

#endif
