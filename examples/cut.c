/* Uses the station library from C, with frames of one or two pixels: a film with the default settings, luma frames with
 * the settings for them, a BGR frame by a call without struct mw_memory, an HSV frame, the readers, the two filter
 * modes, the adaptive detector, calls that are refused, and the list of a film's cuts. cut_c.stdout is what it must
 * print, worked out by hand. It compiles as C99 and as C++17. */
#include "mawerodu.h"

#include <stdio.h>

struct frame {
    int64_t ts;
    uint8_t luma;
};

/* Score, components, sums, count and cut of an answer; nothing if there is no score. */
static void show(const char *name, const struct mw_answer *answer)
{
    int64_t cut;
    double score;

    if (!mw_score(answer, &score))
        return;
    printf("%s %.1f:", name, score);
    for (uint32_t place = 0; place < 4; place++)
        printf(" %.1f", mw_delta(answer, place));
    printf(", sums");
    for (uint32_t place = 0; place < 4; place++)
        printf(" %lu", (unsigned long)mw_sum(answer, place));
    printf(" over %lu", (unsigned long)mw_count(answer));
    if (mw_cut(answer, &cut))
        printf(", cut at %lld", (long long)cut);
    printf("\n");
}

/* A film with the default settings: the second frame's score is 200 / 3. The third differs as much, but comes less than
 * a second after the cut. The frames are luma to show what the defaults do with them: a film of luma frames wants the
 * settings that luma() has. */
static int film(struct mw_content *state, struct mw_memory *memory)
{
    static const struct frame frames[] = {{0, 0}, {400000, 200}, {900000, 0}, {2000000, 0}};

    printf("frame,answer,cut\n");
    for (unsigned i = 0; i < sizeof frames / sizeof *frames; i++) {
        int64_t cut;
        uint32_t number = mw_content_feed_luma(state, memory, &frames[i].luma, 1, 1, 1, 1, frames[i].ts);
        if (number == MW_OK && mw_cut(&memory->answer, &cut))
            printf("%u,%u,%lld\n", i, (unsigned)number, (long long)cut);
        else
            printf("%u,%u,-\n", i, (unsigned)number);
    }
    return mw_content_clear(state) == MW_OK;
}

/* A luma difference of 27, with the default settings and with those for luma frames: a score of 9, and of 27. The
 * second reaches the threshold. */
static int luma(struct mw_content *state, struct mw_memory *memory)
{
    static const uint8_t lumas[2] = {100, 127};

    for (int luma_only = 0; luma_only < 2; luma_only++) {
        uint32_t number = luma_only ? mw_content_new(state, MW_LUMA_CONTENT_SETTINGS) : mw_content_default(state);
        for (int i = 0; i < 2; i++) {
            if (number == MW_OK)
                number = mw_content_feed_luma(state, memory, &lumas[i], 1, 1, 1, 1, i * 40000);
            if (number != MW_OK)
                return 0;
            show("luma", &memory->answer);
        }
    }
    return mw_content_default(state) == MW_OK;
}

/* Two black pixels, of which one turns red: hue 0, saturation and value 255. Each component is its sum over 2, and the
 * score (127.5 + 127.5) / 3. The memory is arrays of our own. */
static int bgr(struct mw_content *state)
{
    static const uint8_t black[6] = {0, 0, 0, 0, 0, 0}, red[6] = {0, 0, 255, 0, 0, 0};
    static uint8_t store[MW_STORE_BYTES(2, 1)], scratch[MW_SCRATCH_BYTES(2, 1)];
    static int32_t magnitudes[MW_MAGNITUDES(2, 1)];
    struct mw_answer answer;

    for (int i = 0; i < 2; i++) {
        if (mw_content_bgr(state, &answer, i ? red : black, 6, 2, 1, 6, i * 40000, store, sizeof store, scratch,
                           sizeof scratch, magnitudes, MW_MAGNITUDES(2, 1)) != MW_OK)
            return 0;
        show("bgr", &answer);
    }
    return mw_content_clear(state) == MW_OK;
}

/* Differences of 10, 30 and 20, and what the state shows of them. There is no place 4. */
static int hsv(struct mw_content *state, struct mw_memory *memory)
{
    static const uint8_t hue[2] = {10, 20}, saturation[2] = {50, 80}, value[2] = {100, 120};

    for (int i = 0; i < 2; i++) {
        if (mw_content_feed_hsv(state, memory, &hue[i], &saturation[i], &value[i], 1, 1, 1, 1, i * 40000) != MW_OK)
            return 0;
        show("hsv", &memory->answer);
    }
    printf("readers %u %.1f %u", (unsigned)mw_content_has_score(state), mw_content_score(state),
           (unsigned)mw_content_has_components(state));
    for (uint32_t place = 0; place < 5; place++)
        printf(" %.1f", mw_content_component(state, place));
    printf("\n");
    return 1;
}

/* Scores of 30, 30, 30, 30 and 5. Suppress drops the second; Merge reports the fourth at the fifth frame. The list has
 * the cuts of the mode that comes last. */
static int modes(struct mw_content *state, struct mw_memory *memory, struct mw_list *list, int64_t *stamps)
{
    static const struct frame frames[] = {{0, 100},       {400000, 130},  {900000, 100},
                                          {1400000, 130}, {2400000, 100}, {3400000, 105}};
    static const char *const names[2] = {"merge", "suppress"};

    for (uint32_t mode = MW_MERGE; mode <= MW_SUPPRESS; mode++) {
        if (mw_content_new(state, MW_LUMA_THRESHOLD, MW_DEFAULT_MIN_DURATION, MW_LUMA_WEIGHTS, mode, MW_DEFAULT_KERNEL,
                           1) != MW_OK)
            return 0;
        mw_list_new(list, MW_DEFAULT_MIN_DURATION);
        printf("%s", names[mode]);
        for (unsigned i = 0; i < sizeof frames / sizeof *frames; i++) {
            int64_t cut;
            if (mw_content_feed_luma(state, memory, &frames[i].luma, 1, 1, 1, 1, frames[i].ts) != MW_OK)
                return 0;
            if (!mw_cut(&memory->answer, &cut))
                continue;
            printf(" %lld (at %lld)", (long long)cut, (long long)frames[i].ts);
            if (mw_list_add(list, stamps, MW_LIST_PLACES, cut) != MW_OK)
                return 0;
        }
        printf("\n");
    }
    return 1;
}

/* The settings for luma frames, and a window of five scores: 1, 1, 30, 1, 1. The ratio of the third is 30 / 1, and the
 * frame with the fifth reports it. */
static int adaptive(void)
{
    static const uint8_t lumas[6] = {10, 11, 12, 42, 43, 44};
    struct mw_adaptive state;
    struct mw_memory memory;

    if (mw_memory_init(&memory, 1, 1) != 0)
        return 0;
    if (mw_adaptive_new(&state, MW_LUMA_ADAPTIVE_SETTINGS) != MW_OK)
        return 0;
    printf("adaptive");
    for (int i = 0; i < 6; i++) {
        int64_t cut;
        if (mw_adaptive_feed_luma(&state, &memory, &lumas[i], 1, 1, 1, 1, i * 40000) != MW_OK)
            return 0;
        if (mw_cut(&memory.answer, &cut))
            printf(" %lld (at %d)", (long long)cut, i * 40000);
    }
    printf(", ratio %u %.1f, target %u %.1f\n", (unsigned)mw_adaptive_has_ratio(&state), mw_adaptive_ratio(&state),
           (unsigned)mw_adaptive_has_target(&state), mw_adaptive_target(&state));
    mw_memory_free(&memory);
    return 1;
}

/* Settings with a mode, a kernel and two flags. */
static uint32_t settings(struct mw_content *state, uint32_t mode, uint32_t has_kernel, uint32_t kernel_size,
                         uint32_t initial_cut)
{
    return mw_content_new(state, 50.0, 0, MW_DEFAULT_WEIGHTS, mode, has_kernel, kernel_size, initial_cut);
}

static int same(const struct mw_content *a, const struct mw_content *b)
{
    return memcmp(a, b, sizeof *a) == 0;
}

/* Which settings are refused, and what they leave. */
static int refused_settings(void)
{
    struct mw_content state, defaults, other;
    struct mw_adaptive wide, wide_defaults;

    /* the macros are the defaults */
    if (mw_content_default(&defaults) != MW_OK || mw_adaptive_default(&wide_defaults) != MW_OK ||
        mw_content_new(&state, MW_DEFAULT_CONTENT_THRESHOLD, MW_DEFAULT_MIN_DURATION, MW_DEFAULT_WEIGHTS, MW_MERGE,
                       MW_DEFAULT_KERNEL, 1) != MW_OK ||
        mw_adaptive_new(&wide, MW_DEFAULT_ADAPTIVE_THRESHOLD, MW_DEFAULT_MIN_DURATION, MW_DEFAULT_WINDOW_WIDTH,
                        MW_DEFAULT_MIN_CONTENT_VAL, MW_DEFAULT_WEIGHTS, MW_DEFAULT_KERNEL, 1) != MW_OK ||
        !same(&state, &defaults) || memcmp(&wide, &wide_defaults, sizeof wide) != 0)
        return 0;

    /* an even kernel is refused before an unknown mode, and a set kernel of 0 is refused as well */
    printf("settings %u", (unsigned)settings(&state, 2, 1, 4, 1));
    printf(" %s,", same(&state, &defaults) ? "defaults" : "other words");
    printf(" %u", (unsigned)settings(&state, 2, 0, 0, 1));
    printf(" %s,", same(&state, &defaults) ? "defaults" : "other words");
    printf(" %u", (unsigned)settings(&state, MW_SUPPRESS, 1, 0, 1));
    printf(" %s\n", same(&state, &defaults) ? "defaults" : "other words");

    /* a flag is off by 0 and on by any other number; a kernel's size that is not set is not looked at */
    printf("flags %u", (unsigned)settings(&state, MW_SUPPRESS, 1, 3, 1));
    printf(" %u", (unsigned)settings(&other, MW_SUPPRESS, 4294967295u, 3, 2));
    printf(" %s,", same(&state, &other) ? "the same words" : "other words");
    printf(" %u", (unsigned)settings(&state, MW_SUPPRESS, 0, 0, 0));
    printf(" %u", (unsigned)settings(&other, MW_SUPPRESS, 0, 4, 0));
    printf(" %s\n", same(&state, &other) ? "the same words" : "other words");

    /* words that are not a state */
    state.words[0] = 0;
    printf("not a state %u %u\n", (unsigned)mw_content_has_score(&state), (unsigned)mw_content_clear(&state));
    return 1;
}

/* Frames that are refused, and memory that is not available. */
static int refused_frames(struct mw_content *state, struct mw_memory *memory)
{
    static const uint8_t luma[2] = {0, 255};
    struct mw_content before = *state;
    struct mw_memory none;
    int64_t cut;
    uint32_t number = mw_content_feed_luma(state, memory, luma, 2, 2, 2, 2, 0);

    printf("refused %u: %s, %s,", (unsigned)number, mw_text(number),
           mw_cut(&memory->answer, &cut) ? "a cut" : "no cut");
    printf(" %s\n", same(state, &before) ? "the same state" : "another state");
    number = mw_content_feed_luma(state, memory, luma, 2, 2, 1, 2, 0);
    printf("refused %u: %s\n", (unsigned)number, mw_text(number));
    printf("too large %d", mw_memory_init(&none, MW_MAX_SIDE + 1, 1));
    printf(" %u\n", (unsigned)mw_content_feed_luma(state, &none, luma, 1, 1, 1, 1, 0));
    mw_memory_free(&none);
    return 1;
}

/* What the list says of a stamp: the cut nearest to it, the earlier one on a tie, and its clip; and which cuts are not
 * before it. */
static int look_up(const struct mw_list *list, const int64_t *stamps, int64_t ts)
{
    struct mw_nearest nearest;
    struct mw_span span;
    uint64_t clip;

    if (mw_list_nearest(list, stamps, MW_LIST_PLACES, ts, &nearest) != MW_OK ||
        mw_list_span(list, stamps, MW_LIST_PLACES, ts, INT64_MAX, &span) != MW_OK ||
        mw_list_clip(list, stamps, MW_LIST_PLACES, ts, &clip) != MW_OK)
        return 0;
    if (nearest.has)
        printf("%lld: nearest %lld,", (long long)ts, (long long)nearest.ts);
    else
        printf("%lld: no nearest,", (long long)ts);
    printf(" clip %llu, from it on %llu:", (unsigned long long)clip, (unsigned long long)span.count);
    for (uint64_t place = span.first; place < span.first + span.count; place++)
        printf(" %lld", (long long)stamps[place]);
    printf("\n");
    return 1;
}

/* The list of the cuts 400000, 1400000 and 2400000, a second apart. */
static int listed(struct mw_list *list, int64_t *stamps)
{
    /* a tie; a cut itself */
    if (!look_up(list, stamps, 900000) || !look_up(list, stamps, 1400000))
        return 0;
    /* too close to a cut after it, and not in the list; then a cut removed, and another added */
    printf("list %u", (unsigned)mw_list_add(list, stamps, MW_LIST_PLACES, 1399999));
    printf(" %u,", (unsigned)mw_list_remove(list, stamps, MW_LIST_PLACES, 1399999));
    printf(" %u", (unsigned)mw_list_remove(list, stamps, MW_LIST_PLACES, 1400000));
    printf(" %u\n", (unsigned)mw_list_add(list, stamps, MW_LIST_PLACES, 3400000));
    if (!look_up(list, stamps, 1400001) || mw_list_empty(list, stamps, MW_LIST_PLACES) != MW_OK)
        return 0;
    return look_up(list, stamps, 0);
}

int main(void)
{
    static int64_t stamps[MW_LIST_PLACES];
    struct mw_list list;
    struct mw_content state;
    struct mw_memory memory;
    int done;

    /* header and library */
    if (mw_version() != MW_VERSION || mw_content_words() != MW_CONTENT_WORDS ||
        mw_adaptive_words() != MW_ADAPTIVE_WORDS || mw_answer_words() != MW_ANSWER_WORDS ||
        mw_list_words() != MW_LIST_WORDS || mw_list_places() != MW_LIST_PLACES ||
        mw_store_bytes(5, 9) != MW_STORE_BYTES(5, 9) || mw_scratch_bytes(5, 9) != MW_SCRATCH_BYTES(5, 9) ||
        mw_scratch_bytes(9, 5) != MW_SCRATCH_BYTES(9, 5) || mw_magnitudes(5, 9) != MW_MAGNITUDES(5, 9)) {
        fprintf(stderr, "the header is not that of the library\n");
        return 1;
    }
    if (mw_memory_init(&memory, 1, 1) != 0) {
        fprintf(stderr, "out of memory\n");
        return 1;
    }
    done = mw_content_default(&state) == MW_OK && film(&state, &memory) && luma(&state, &memory) && bgr(&state) &&
           hsv(&state, &memory) && modes(&state, &memory, &list, stamps) && adaptive() && refused_settings() &&
           refused_frames(&state, &memory) && listed(&list, stamps);
    mw_memory_free(&memory);
    return done ? 0 : 1;
}
