/* A light plan: a film of luma frames of a desk, first in a dim room, then with the lamp on. In the dim room a new page
 * is a luma difference of 12, and should be a cut. In the light a cloud is one of 12 too, and should not. With one
 * threshold either the page is missed or the cloud is a cut; a plan has a threshold for each. Then the median of a BGR
 * frame, the plan that a state holds, and the plans that are refused. plan_c.stdout is what it must print, worked out
 * by hand. It compiles as C99 and as C++17. */
#include "mawerodu.h"

#include <stdio.h>

enum { WIDTH = 8, HEIGHT = 6, PIXELS = WIDTH * HEIGHT };

/* The luma of the desk's frames, and what happens in the frame. */
struct shot {
    int64_t ts;
    uint8_t luma;
    const char *what;
};
static const struct shot film[] = {
    {0, 40, "a page in the dim room"}, {2000000, 52, "a new page"},   {4000000, 180, "the lamp goes on"},
    {6000000, 192, "a cloud goes"},    {8000000, 193, "as it was"},
};
enum { SHOTS = sizeof film / sizeof *film };

/* Frames whose median is up to 99 have the threshold 8, all others 27. */
static const char plan[] = "0,99,8\n100,255,27\n";

/* A desk of this luma, with a pen on it that is black. */
static void draw(uint8_t *frame, uint8_t luma)
{
    memset(frame, luma, PIXELS);
    frame[WIDTH + 1] = frame[WIDTH + 2] = 0;
}

static uint32_t settle(struct mw_content *state, double threshold, const char *text)
{
    return mw_content_new_with_plan(state, threshold, MW_DEFAULT_MIN_DURATION, MW_LUMA_WEIGHTS, MW_SUPPRESS,
                                    MW_DEFAULT_KERNEL, 1, (const uint8_t *)text, strlen(text));
}

/* The median of each frame: what a plan has to be written for. */
static int medians(void)
{
    uint8_t frame[PIXELS], median;

    for (int i = 0; i < SHOTS; i++) {
        draw(frame, film[i].luma);
        if (mw_luma_median(frame, sizeof frame, WIDTH, HEIGHT, WIDTH, &median) != MW_OK)
            return 0;
        printf("%lld: median %u, %s\n", (long long)film[i].ts, (unsigned)median, film[i].what);
    }
    return 1;
}

/* The cuts of the film. */
static int cuts(struct mw_memory *memory, const char *name, double threshold, const char *text)
{
    struct mw_content state;
    uint8_t frame[PIXELS];

    if (settle(&state, threshold, text) != MW_OK)
        return 0;
    printf("%s:", name);
    for (int i = 0; i < SHOTS; i++) {
        int64_t cut;

        draw(frame, film[i].luma);
        if (mw_content_feed_luma(&state, memory, frame, sizeof frame, WIDTH, HEIGHT, WIDTH, film[i].ts) != MW_OK)
            return 0;
        if (mw_cut(&memory->answer, &cut))
            printf(" %lld", (long long)cut);
    }
    printf("\n");
    return 1;
}

/* The luma of a BGR frame is its value, the largest of B, G and R. After the call it is in the third part of the store.
 * */
static int of_bgr(struct mw_memory *memory)
{
    struct mw_content state;
    uint8_t pixels[3 * PIXELS], median;

    for (int i = 0; i < PIXELS; i++) {
        pixels[3 * i] = 20;
        pixels[3 * i + 1] = 45;
        pixels[3 * i + 2] = 30;
    }
    if (mw_content_default(&state) != MW_OK ||
        mw_content_feed_bgr(&state, memory, pixels, sizeof pixels, WIDTH, HEIGHT, 3 * WIDTH, 0) != MW_OK ||
        mw_luma_median(memory->store + 2 * PIXELS, PIXELS, WIDTH, HEIGHT, WIDTH, &median) != MW_OK)
        return 0;
    printf("bgr: median %u\n", (unsigned)median);
    return 1;
}

/* The text of the plan that a state holds. */
static void show(const struct mw_content *state)
{
    uint8_t text[MW_PLAN_TEXT];
    uint32_t length = mw_content_plan(state, text);

    printf("plan:");
    for (uint32_t i = 0; i < length; i++)
        if (text[i] == '\n')
            printf(";");
        else
            printf("%c", text[i]);
    printf("\n");
}

int main(void)
{
    static const char *const refused[] = {"0,99,8\n100,255,27", "0,99,8\n200,100,27\n", "0,100,8\n100,255,27\n",
                                          "0,99,8\n100,254,27\n"};
    struct mw_content state;
    struct mw_memory memory;

    if (mw_version() >> 8 != MW_VERSION >> 8 || mw_content_words() != MW_CONTENT_WORDS) {
        fprintf(stderr, "the header is not that of the library\n");
        return 1;
    }
    if (mw_memory_init(&memory, WIDTH, HEIGHT) != 0) {
        fprintf(stderr, "out of memory\n");
        return 1;
    }
    if (!medians() || !cuts(&memory, "threshold 27", 27.0, "") || !cuts(&memory, "threshold 8", 8.0, "") ||
        !cuts(&memory, "by the plan", 27.0, plan) || !of_bgr(&memory))
        return 1;
    mw_memory_free(&memory);

    /* the plan stays through a clear; no plan is the empty text, and so is that of settings that are refused */
    if (settle(&state, 27.0, plan) != MW_OK || mw_content_clear(&state) != MW_OK)
        return 1;
    show(&state);
    for (unsigned i = 0; i < sizeof refused / sizeof *refused; i++) {
        uint32_t number = settle(&state, 27.0, refused[i]);
        printf("%u: %s\n", (unsigned)number, mw_text(number));
    }
    show(&state);
    return 0;
}
