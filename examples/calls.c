/* Calls every function of mawerodu.h, the plain frame calls and the feed calls of both detectors, the calls of a light
 * plan and the list calls, and prints the name of each function that it calls and what came of it. Each argument
 * differs from its neighbours, so that two of them in the other order would show. calls_c.stdout is what it must print;
 * it is the output of calls.py, a model of docs/RULES.md that knows nothing of the library. examples/run compares the
 * two, and that no function of the header is left out. It compiles as C99 and as C++17. */
#include "mawerodu.h"

#include <stdio.h>

/* Prints the name of a function, and calls it. */
#define CALL(name, arguments) ((void)printf("%s ", #name), name arguments)

/* ---- Pictures: a block of one colour on another ---- */

enum kind { LUMA, BGR, HSV, KINDS };

enum { WIDTH = 12, HEIGHT = 9, PIXELS = WIDTH * HEIGHT, PADDING = 99 };
static const uint32_t strides[KINDS] = {13, 40, 15};

struct picture {
    enum kind kind;
    int64_t ts;
    uint8_t back[3];
    uint8_t block[3]; /* luma (the first alone), or B, G, R, or H, S, V */
    int left, top, right, bottom;
};

static const struct picture film[] = {
    {HSV, 1000000, {20, 60, 90}, {50, 110, 200}, 2, 2, 6, 6},
    {HSV, 1100000, {90, 80, 150}, {20, 200, 60}, 5, 1, 10, 5},
    {BGR, 1300000, {10, 60, 120}, {200, 180, 40}, 1, 3, 7, 8},
    {LUMA, 1500000, {70, 0, 0}, {180, 0, 0}, 3, 2, 9, 6},
    {LUMA, 1700000, {160, 0, 0}, {20, 0, 0}, 2, 4, 6, 7},
    {LUMA, 1800000, {161, 0, 0}, {22, 0, 0}, 2, 4, 6, 7},
    {LUMA, 2100000, {160, 0, 0}, {23, 0, 0}, 2, 4, 6, 7},
    {HSV, 2500000, {120, 40, 30}, {10, 90, 240}, 6, 2, 11, 7},
    {HSV, 2600000, {121, 43, 35}, {10, 90, 240}, 6, 2, 11, 7},
    {BGR, 3000000, {90, 200, 30}, {30, 20, 220}, 4, 1, 8, 8},
};
enum { PICTURES = sizeof film / sizeof *film };

/* The planes of the picture that was drawn last; a luma or BGR picture is in the first. */
static uint8_t planes[3][40 * HEIGHT + 2];

static void draw(const struct picture *picture)
{
    uint32_t stride = strides[picture->kind];

    memset(planes, PADDING, sizeof planes);
    for (int y = 0; y < HEIGHT; y++)
        for (int x = 0; x < WIDTH; x++) {
            int in = x >= picture->left && x < picture->right && y >= picture->top && y < picture->bottom;
            const uint8_t *colour = in ? picture->block : picture->back;
            size_t row = (size_t)y * stride, place = (size_t)x;
            planes[0][picture->kind == BGR ? row + 3 * place : row + place] = colour[0];
            if (picture->kind == BGR) {
                planes[0][row + 3 * place + 1] = colour[1];
                planes[0][row + 3 * place + 2] = colour[2];
            } else if (picture->kind == HSV) {
                planes[1][row + place] = colour[1];
                planes[2][row + place] = colour[2];
            }
        }
}

/* ---- Memory of our own, with a few elements behind what a call is lent ---- */

enum { STORE = 4 * PIXELS, SCRATCH = 7 * PIXELS + 2 * WIDTH, BEHIND = 8, FILL = 77 };

struct own {
    struct mw_answer answer;
    uint8_t store[STORE + BEHIND];
    uint8_t scratch[SCRATCH + BEHIND];
    int32_t magnitudes[PIXELS + BEHIND];
};
static struct own own;

/* What a frame call gets besides state, answer and planes. */
struct frame {
    uint32_t width, height, stride;
    size_t lengths[3];
    int64_t ts;
    size_t store_len, scratch_len, magnitudes_len;
};

/* A frame with a different number more than is needed in each length. */
static struct frame frame_of(const struct picture *picture)
{
    struct frame f;
    size_t need = (size_t)strides[picture->kind] * HEIGHT;

    f.width = WIDTH;
    f.height = HEIGHT;
    f.stride = strides[picture->kind];
    f.lengths[0] = need;
    f.lengths[1] = need + 1;
    f.lengths[2] = need + 2;
    f.ts = picture->ts;
    f.store_len = STORE + 1;
    f.scratch_len = SCRATCH + 2;
    f.magnitudes_len = PIXELS + 3;
    return f;
}

/* Whether nothing was written behind the planes in the store, and nothing behind what was lent of the rest. */
static int kept(const struct frame *f)
{
    for (size_t i = STORE; i < sizeof own.store; i++)
        if (own.store[i] != FILL)
            return 0;
    for (size_t i = f->scratch_len; i < sizeof own.scratch; i++)
        if (own.scratch[i] != FILL)
            return 0;
    for (size_t i = f->magnitudes_len; i < PIXELS + BEHIND; i++)
        if (own.magnitudes[i] != FILL)
            return 0;
    return 1;
}

static void refill(void)
{
    memset(&own, FILL, sizeof own);
    for (int i = 0; i < PIXELS + BEHIND; i++)
        own.magnitudes[i] = FILL;
}

/* ---- Both detectors ---- */

struct detector {
    int adaptive; /* which of the two states is used */
    struct mw_content c;
    struct mw_adaptive a;
};

static void words(const struct detector *d)
{
    const uint64_t *word = d->adaptive ? d->a.words : d->c.words;

    printf("words");
    for (int i = 0; i < (d->adaptive ? MW_ADAPTIVE_WORDS : MW_CONTENT_WORDS); i++)
        if (word[i] != 0)
            printf(" %d:%llx", i, (unsigned long long)word[i]);
    printf("\n");
}

/* Plans by which some of the film's frames are above, and by another row would not be. The film's medians are 90, 150,
 * 120, 70, 160, 161, 160, 30, 35 and 200. */
static const char *const plans[2] = {
    "161,161,0\n0,34,117\n35,69,1\n70,120,101\n121,160,66\n162,255,140\n",
    "36,255,30\n0,35,0\n",
};

/* The settings: 0 are the defaults; 1 have a kernel and no initial cut, 2 the other way round. In 2 the size of the
 * kernel is not looked at. 3 and 4 of the content detector are 1 and 2 with a light plan. All of them count hue and
 * saturation, since the film has colours. A film of luma frames wants MW_LUMA_CONTENT_SETTINGS or
 * MW_LUMA_ADAPTIVE_SETTINGS, as in cut.c. */
static void settle(struct detector *d, int settings)
{
    uint32_t number;

    if (d->adaptive)
        switch (settings) {
        case 0:
            number = CALL(mw_adaptive_default, (&d->a));
            break;
        case 1:
            number = CALL(mw_adaptive_new, (&d->a, 1.5, 200000, 1, 2.5, 4.0, 3.0, 1.0, 2.0, 6, 3, 0));
            break;
        default:
            number = CALL(mw_adaptive_new, (&d->a, 1.25, 350000, 2, 5.5, 2.0, 1.0, 3.0, 0.0, 0, 4, 8));
        }
    else
        switch (settings) {
        case 0:
            number = CALL(mw_content_default, (&d->c));
            break;
        case 1:
            number = CALL(mw_content_new, (&d->c, 10.5, 300000, 1.0, 2.0, 3.0, 4.0, MW_SUPPRESS, 2, 3, 0));
            break;
        case 2:
            number = CALL(mw_content_new, (&d->c, 20.25, 250000, 3.0, 1.0, 2.0, 0.0, MW_MERGE, 0, 9, 7));
            break;
        case 3:
            number = CALL(mw_content_new_with_plan, (&d->c, 10.5, 300000, 1.0, 2.0, 3.0, 4.0, MW_SUPPRESS, 2, 3, 0,
                                                     (const uint8_t *)plans[0], strlen(plans[0])));
            break;
        default:
            number = CALL(mw_content_new_with_plan, (&d->c, 20.25, 250000, 3.0, 1.0, 2.0, 0.0, MW_MERGE, 0, 9, 7,
                                                     (const uint8_t *)plans[1], strlen(plans[1])));
        }
    printf("%u\n", (unsigned)number);
    words(d);
}

static uint32_t plain(struct detector *d, enum kind kind, const struct frame *f)
{
    struct mw_answer *answer = &own.answer;

    if (d->adaptive)
        switch (kind) {
        case LUMA:
            return CALL(mw_adaptive_luma,
                        (&d->a, answer, planes[0], f->lengths[0], f->width, f->height, f->stride, f->ts, own.store,
                         f->store_len, own.scratch, f->scratch_len, own.magnitudes, f->magnitudes_len));
        case BGR:
            return CALL(mw_adaptive_bgr,
                        (&d->a, answer, planes[0], f->lengths[0], f->width, f->height, f->stride, f->ts, own.store,
                         f->store_len, own.scratch, f->scratch_len, own.magnitudes, f->magnitudes_len));
        default:
            return CALL(mw_adaptive_hsv,
                        (&d->a, answer, planes[0], f->lengths[0], planes[1], f->lengths[1], planes[2], f->lengths[2],
                         f->width, f->height, f->stride, f->ts, own.store, f->store_len, own.scratch, f->scratch_len,
                         own.magnitudes, f->magnitudes_len));
        }
    switch (kind) {
    case LUMA:
        return CALL(mw_content_luma,
                    (&d->c, answer, planes[0], f->lengths[0], f->width, f->height, f->stride, f->ts, own.store,
                     f->store_len, own.scratch, f->scratch_len, own.magnitudes, f->magnitudes_len));
    case BGR:
        return CALL(mw_content_bgr,
                    (&d->c, answer, planes[0], f->lengths[0], f->width, f->height, f->stride, f->ts, own.store,
                     f->store_len, own.scratch, f->scratch_len, own.magnitudes, f->magnitudes_len));
    default:
        return CALL(mw_content_hsv,
                    (&d->c, answer, planes[0], f->lengths[0], planes[1], f->lengths[1], planes[2], f->lengths[2],
                     f->width, f->height, f->stride, f->ts, own.store, f->store_len, own.scratch, f->scratch_len,
                     own.magnitudes, f->magnitudes_len));
    }
}

static uint32_t feed(struct detector *d, enum kind kind, const struct frame *f, struct mw_memory *memory)
{
    size_t length = f->lengths[0];

    if (d->adaptive)
        switch (kind) {
        case LUMA:
            return CALL(mw_adaptive_feed_luma,
                        (&d->a, memory, planes[0], length, f->width, f->height, f->stride, f->ts));
        case BGR:
            return CALL(mw_adaptive_feed_bgr,
                        (&d->a, memory, planes[0], length, f->width, f->height, f->stride, f->ts));
        default:
            return CALL(mw_adaptive_feed_hsv, (&d->a, memory, planes[0], planes[1], planes[2], length, f->width,
                                               f->height, f->stride, f->ts));
        }
    switch (kind) {
    case LUMA:
        return CALL(mw_content_feed_luma, (&d->c, memory, planes[0], length, f->width, f->height, f->stride, f->ts));
    case BGR:
        return CALL(mw_content_feed_bgr, (&d->c, memory, planes[0], length, f->width, f->height, f->stride, f->ts));
    default:
        return CALL(mw_content_feed_hsv, (&d->c, memory, planes[0], planes[1], planes[2], length, f->width, f->height,
                                          f->stride, f->ts));
    }
}

static void clear(struct detector *d)
{
    uint32_t number = d->adaptive ? CALL(mw_adaptive_clear, (&d->a)) : CALL(mw_content_clear, (&d->c));

    printf("%u\n", (unsigned)number);
    words(d);
}

/* A number that a reader returned: whether there is a value, or the value. */
static void there(uint32_t has) { printf("%u ", (unsigned)has); }
static void value(double x) { printf("%.17g ", x); }

static void readers(const struct detector *d)
{
    if (d->adaptive) {
        there(CALL(mw_adaptive_has_score, (&d->a)));
        value(CALL(mw_adaptive_score, (&d->a)));
        there(CALL(mw_adaptive_has_components, (&d->a)));
        for (uint32_t place = 0; place < 5; place++)
            value(CALL(mw_adaptive_component, (&d->a, place)));
        there(CALL(mw_adaptive_has_ratio, (&d->a)));
        value(CALL(mw_adaptive_ratio, (&d->a)));
        there(CALL(mw_adaptive_has_target, (&d->a)));
        value(CALL(mw_adaptive_target, (&d->a)));
    } else {
        there(CALL(mw_content_has_score, (&d->c)));
        value(CALL(mw_content_score, (&d->c)));
        there(CALL(mw_content_has_components, (&d->c)));
        for (uint32_t place = 0; place < 5; place++)
            value(CALL(mw_content_component, (&d->c, place)));
    }
    printf("readers\n");
}

static void show(const struct mw_answer *answer)
{
    int64_t cut = 0;
    double score = 0.0;

    if (CALL(mw_cut, (answer, &cut)))
        printf("1 %lld ", (long long)cut);
    else
        printf("0 ");
    if (CALL(mw_score, (answer, &score)))
        printf("1 %.17g ", score);
    else
        printf("0 ");
    for (uint32_t place = 0; place < 5; place++)
        value(CALL(mw_delta, (answer, place)));
    for (uint32_t place = 0; place < 5; place++)
        printf("%lu ", (unsigned long)CALL(mw_sum, (answer, place)));
    printf("%lu ", (unsigned long)CALL(mw_sum, (answer, UINT32_MAX)));
    printf("%lu ", (unsigned long)CALL(mw_count, (answer)));
}

/* Whether an answer has neither a cut nor a score, and its sums and its count are 0. */
static int nothing(const struct mw_answer *answer)
{
    int64_t cut;
    double score;

    for (uint32_t place = 0; place < 4; place++)
        if (mw_sum(answer, place) != 0)
            return 0;
    return mw_count(answer) == 0 && !mw_cut(answer, &cut) && !mw_score(answer, &score);
}

/* The median of the luma plane in the store, the sum of each plane, and whether the rest was kept. */
static void show_store(const uint8_t *store, int rest)
{
    uint8_t median = FILL;

    printf("%u ", (unsigned)CALL(mw_luma_median, (store + 2 * PIXELS, PIXELS, WIDTH, HEIGHT, WIDTH, &median)));
    printf("%u store", (unsigned)median);
    for (int plane = 0; plane < 4; plane++) {
        unsigned sum = 0;
        for (int i = 0; i < PIXELS; i++)
            sum += store[plane * PIXELS + i];
        printf(" %u", sum);
    }
    printf(" %s\n", rest ? "kept" : "not kept");
}

/* The film by plain calls, on memory that is not zero, and by feed calls, on memory for a frame of 13 x 10. */
static void show_film(struct detector *d, int feeding)
{
    struct mw_memory memory;

    refill();
    if (feeding)
        printf("%d\n", CALL(mw_memory_init, (&memory, WIDTH + 1, HEIGHT + 1)));
    for (int i = 0; i < PICTURES; i++) {
        struct frame f = frame_of(&film[i]);
        uint32_t number;

        draw(&film[i]);
        number = feeding ? feed(d, film[i].kind, &f, &memory) : plain(d, film[i].kind, &f);
        printf("%lld %u ", (long long)f.ts, (unsigned)number);
        show(feeding ? &memory.answer : &own.answer);
        if (feeding) {
            int rest = 1;
            for (size_t place = STORE; place < memory.store_len; place++)
                rest = rest && memory.store[place] == 0;
            show_store(memory.store, rest);
        } else {
            show_store(own.store, kept(&f));
        }
    }
    readers(d);
    words(d);
    clear(d);
    readers(d);
    if (feeding) {
        CALL(mw_memory_free, (&memory));
        printf("done\n");
    }
}

/* ---- Refusals ---- */

enum fault { STATE, WIDE, HIGH, STRIDE, FIRST, SECOND, THIRD, SHORT_STORE, SHORT_SCRATCH, SHORT_MAGNITUDES, FAULTS };

/* A frame in order but for one fault. */
static struct frame faulty(const struct picture *picture, int fault)
{
    struct frame f = frame_of(picture);

    f.width = fault == WIDE ? 4097 : f.width;
    f.height = fault == HIGH ? 4097 : f.height;
    f.stride = fault == STRIDE ? (picture->kind == BGR ? 3 * WIDTH - 1 : WIDTH - 1) : f.stride;
    f.lengths[0] -= fault == FIRST ? 1 : 0;
    f.lengths[1] -= fault == SECOND ? 2 : 0;
    f.lengths[2] -= fault == THIRD ? 3 : 0;
    f.store_len = fault == SHORT_STORE ? STORE - 1 : f.store_len;
    f.scratch_len = fault == SHORT_SCRATCH ? SCRATCH - 1 : f.scratch_len;
    f.magnitudes_len = fault == SHORT_MAGNITUDES ? PIXELS - 1 : f.magnitudes_len;
    return f;
}

/* A state that is not one. */
static void spoil(struct detector *d)
{
    d->a.words[0]++;
    d->c.words[0]++;
}

/* The first picture of a kind. */
static const struct picture *first(int kind)
{
    const struct picture *picture = film;

    while ((int)picture->kind != kind)
        picture++;
    return picture;
}

static int same(const struct detector *d, const struct detector *before)
{
    return memcmp(&d->a, &before->a, sizeof d->a) == 0 && memcmp(&d->c, &before->c, sizeof d->c) == 0;
}

/* Every fault by itself, of every kind of frame. A plain call leaves state, answer and memory; a feed call leaves the
 * state and empties the answer. */
static void refused(const struct detector *settled, struct mw_memory *memory)
{
    for (int kind = 0; kind < KINDS; kind++)
        for (int fault = 0; fault < FAULTS; fault++) {
            struct frame f = faulty(first(kind), fault);
            struct detector d = *settled, before;
            static struct own own_before;
            uint32_t number;

            if ((fault == SECOND || fault == THIRD) && (kind != HSV || memory != NULL))
                continue;
            draw(first(kind));
            refill();
            if (fault == STATE)
                spoil(&d);
            before = d;
            memcpy(&own_before, &own, sizeof own);
            if (memory == NULL) {
                number = plain(&d, first(kind)->kind, &f);
                printf("%u %s\n", (unsigned)number,
                       same(&d, &before) && memcmp(&own, &own_before, sizeof own) == 0 ? "as before" : "changed");
            } else {
                struct mw_memory part = *memory;

                memset(&part.answer, FILL, sizeof part.answer);
                part.answer.words[0] = part.answer.words[2] = 1;
                part.store_len -= fault == SHORT_STORE ? 1 : 0;
                part.scratch_len -= fault == SHORT_SCRATCH ? 1 : 0;
                part.magnitudes_len -= fault == SHORT_MAGNITUDES ? 1 : 0;
                number = feed(&d, first(kind)->kind, &f, &part);
                printf("%u %s\n", (unsigned)number,
                       same(&d, &before) && nothing(&part.answer) ? "no cut, no score, no sums" : "changed");
            }
        }
}

/* Frames that are fed to empty memory: the library decides in its own order, and takes a frame of 0 x 0. */
static void empty(const struct detector *settled, struct mw_memory *memory)
{
    static const int faults[] = {STATE, WIDE, STRIDE, FIRST, FAULTS};

    for (int kind = 0; kind < KINDS; kind++)
        for (int i = 0; i < 7; i++) {
            struct frame f = faulty(first(kind), i < 5 ? faults[i] : FAULTS);
            struct detector d = *settled;

            if (i == 0)
                spoil(&d);
            f.width = i > 4 ? 0 : f.width;
            f.height = i > 5 ? 0 : f.height;
            printf("%u ", (unsigned)feed(&d, first(kind)->kind, &f, memory));
            printf("%s\n", nothing(&memory->answer) ? "no cut, no score, no sums" : "an answer");
        }
}

static void show_refusals(struct detector *d)
{
    struct mw_memory memory;
    struct mw_lent lent;

    refused(d, NULL);
    printf("%d\n", CALL(mw_memory_init, (&memory, WIDTH, HEIGHT)));
    refused(d, &memory);
    CALL(mw_memory_free, (&memory));
    printf("done\n");
    CALL(mw_memory_lend, (&memory, &lent));
    printf("%lu %lu %lu %s\n", (unsigned long)lent.store_len, (unsigned long)lent.scratch_len,
           (unsigned long)lent.magnitudes_len,
           lent.store != NULL && lent.scratch != NULL && lent.magnitudes != NULL ? "not NULL" : "NULL");
    empty(d, &memory);
    printf("%d\n", CALL(mw_memory_init, (&memory, MW_MAX_SIDE + 1, 1)));
    printf("%d\n", CALL(mw_memory_init, (&memory, 1, MW_MAX_SIDE + 1)));
}

/* ---- The light plan ---- */

/* Settings, and a text of a plan: in order, or with a fault. */
enum settings { GOOD, WEIGHT, ZERO, KERNEL, NAN_THRESHOLD, MODE };

struct planned {
    enum settings settings;
    const char *text;
};

static const struct planned texts[] = {
    /* plans, and none */
    {GOOD, ""}, {GOOD, "0,255,30\n"}, {GOOD, "0,255,0\n"}, {GOOD, "128,255,40\n0,127,12\n"}, {GOOD, "0,0,1\n1,255,9\n"},
    {GOOD, "0,254,1\n255,255,255\n"},
    {GOOD, "0,0,0\n1,1,1\n2,2,2\n3,3,3\n4,4,4\n5,5,5\n6,6,6\n7,7,7\n8,8,8\n9,9,9\n10,10,10\n11,11,11\n12,12,12\n"
           "13,13,13\n14,14,14\n15,255,255\n"},
    {GOOD, "240,255,240\n224,239,224\n208,223,208\n192,207,192\n176,191,176\n160,175,160\n144,159,144\n128,143,128\n"
           "112,127,112\n100,111,100\n84,99,84\n68,83,68\n52,67,52\n36,51,36\n20,35,20\n0,19,0\n"},
    /* other shapes: line feeds, fields, digits, numbers */
    {GOOD, "0,255,30"}, {GOOD, "\n"}, {GOOD, "0,255,30\n\n"}, {GOOD, "\n0,255,30\n"}, {GOOD, "0,255,30\r\n"},
    {GOOD, "0,255\n"}, {GOOD, "0,255,30,\n"}, {GOOD, "0,255,30,1\n"}, {GOOD, ",0,255,30\n"}, {GOOD, "0,,30\n"},
    {GOOD, ",,\n"}, {GOOD, "0;255;30\n"}, {GOOD, "00,255,30\n"}, {GOOD, "0,255,030\n"}, {GOOD, " 0,255,30\n"},
    {GOOD, "0,255,30 \n"}, {GOOD, "+0,255,30\n"}, {GOOD, "-0,255,30\n"}, {GOOD, "0,255,3.0\n"}, {GOOD, "0,255,3e1\n"},
    {GOOD, "0x0,255,30\n"}, {GOOD, "\"0\",255,30\n"}, {GOOD, "0,256,30\n"}, {GOOD, "0,255,256\n"},
    {GOOD, "256,255,30\n"}, {GOOD, "0,18446744073709551871,30\n"}, {GOOD, "from,to,threshold\n0,255,30\n"},
    /* a first number over the second, and more than 16 rows */
    {GOOD, "255,0,30\n"}, {GOOD, "0,255,30\n9,8,1\n"},
    {GOOD, "0,0,0\n1,1,1\n2,2,2\n3,3,3\n4,4,4\n5,5,5\n6,6,6\n7,7,7\n8,8,8\n9,9,9\n10,10,10\n11,11,11\n12,12,12\n"
           "13,13,13\n14,14,14\n15,15,15\n16,255,255\n"},
    /* two rows for a median, at an end, within, and the same row twice */
    {GOOD, "0,100,5\n100,255,9\n"}, {GOOD, "100,255,9\n0,100,9\n"}, {GOOD, "0,255,5\n7,7,9\n"},
    {GOOD, "0,255,30\n0,255,30\n"}, {GOOD, "0,254,5\n255,255,9\n255,255,8\n"}, {GOOD, "0,0,5\n0,255,9\n"},
    /* none for a median: within, the first, the last, and for most */
    {GOOD, "0,100,5\n102,255,9\n"}, {GOOD, "1,255,30\n"}, {GOOD, "0,254,30\n"}, {GOOD, "128,128,1\n"},
    /* two faults of a text: the smaller number, wherever they stand */
    {GOOD, "0,100,5\n100,200,5\n"}, {GOOD, "0,99,5\n201,255,5\n150,160,5\n160,170,5\n"},
    {GOOD, "0,100,5\n100,255,5\n9,8,1\n"}, {GOOD, "0,100,5\n102,255,9"}, {GOOD, "1,255,30\n0\n"},
    /* the other settings are refused first, and the mode before the plan */
    {WEIGHT, "x"}, {ZERO, "x"}, {KERNEL, "0,100,5\n100,255,9\n"}, {NAN_THRESHOLD, "1,255,30\n"}, {MODE, "x"},
    {MODE, "0,255,30\n"}, {NAN_THRESHOLD, "0,255,30\n"}, {MODE, ""},
};

/* The text of the plan that a state holds; a line feed is shown as a semicolon. */
static void show_plan(const struct mw_content *state)
{
    uint8_t text[MW_PLAN_TEXT + BEHIND];
    uint32_t length;
    int rest = 1;

    memset(text, FILL, sizeof text);
    length = CALL(mw_content_plan, (state, text));
    printf("%u ", (unsigned)length);
    for (uint32_t i = 0; i < sizeof text; i++)
        if (i >= length)
            rest = rest && text[i] == FILL;
        else
            printf("%c", text[i] == '\n' ? ';' : text[i]);
    printf(" %s\n", rest ? "kept" : "not kept");
}

/* Settings with these faults, and a plan; refused, they are the defaults. */
static void show_texts(void)
{
    for (unsigned i = 0; i < sizeof texts / sizeof *texts; i++) {
        enum settings fault = texts[i].settings;
        double weight = fault == WEIGHT ? 1048577.0 : fault == ZERO ? 0.0 : 1.0, zero = 0.0;
        struct mw_content state, defaults;
        uint32_t number;

        memset(&state, FILL, sizeof state);
        number = CALL(mw_content_new_with_plan,
                      (&state, fault == NAN_THRESHOLD ? zero / zero : 26.5, 900000, weight, 0.0, 0.0, 0.0,
                       fault == MODE ? 2 : MW_SUPPRESS, 1, fault == KERNEL ? 4 : 5, 0,
                       (const uint8_t *)texts[i].text, strlen(texts[i].text)));
        mw_content_default(&defaults);
        printf("%u %s ", (unsigned)number,
               memcmp(&state, &defaults, sizeof state) == 0 ? "the defaults" : "these settings");
        show_plan(&state);
    }
}

/* The words of a plan: its count, and 16 bytes each for first medians, last medians and thresholds. */
struct plan_words {
    uint64_t count;
    uint8_t from[16], to[16], threshold[16];
};

/* In order, with something behind its rows; then with a fault each. */
static const struct plan_words made_plans[] = {
    {2, {0, 100, 7, 9}, {99, 255, 3, 9}, {8, 27, 5, 1}},
    {0, {1}, {2}, {3}},
    {16,
     {0, 1, 2, 3, 4, 5, 6, 7, 8, 9, 10, 11, 12, 13, 14, 15},
     {0, 1, 2, 3, 4, 5, 6, 7, 8, 9, 10, 11, 12, 13, 14, 255},
     {1, 2, 3, 4, 5, 6, 7, 8, 9, 10, 11, 12, 13, 14, 15, 255}},
    {17,
     {0, 1, 2, 3, 4, 5, 6, 7, 8, 9, 10, 11, 12, 13, 14, 15},
     {0, 1, 2, 3, 4, 5, 6, 7, 8, 9, 10, 11, 12, 13, 14, 255},
     {1, 2, 3, 4, 5, 6, 7, 8, 9, 10, 11, 12, 13, 14, 15, 255}},
    {4294967295u, {0}, {255}, {30}},
    {4294967296u, {0}, {255}, {30}},
    {4294967297u, {0}, {255}, {30}},
    {1, {255}, {0}, {30}},
    {2, {0, 100}, {100, 255}, {8, 27}},
    {2, {0, 100}, {98, 255}, {8, 27}},
    {1, {0}, {254}, {30}},
    {1, {1}, {255}, {30}},
};

static void put_word(uint64_t *word, const uint8_t *bytes)
{
    *word = 0;
    for (int i = 7; i >= 0; i--)
        *word = *word << 8 | bytes[i];
}

static void put_plan(struct mw_content *state, const struct plan_words *plan)
{
    const uint8_t *const parts[3] = {plan->from, plan->to, plan->threshold};

    state->words[27] = plan->count;
    for (int part = 0; part < 3; part++)
        for (int half = 0; half < 2; half++)
            put_word(&state->words[28 + 2 * part + half], parts[part] + 8 * half);
}

/* Each of these plans in a state: its text; a clear, a frame, and the words after it. */
static void show_made_plans(void)
{
    static struct detector d;

    for (unsigned i = 0; i < sizeof made_plans / sizeof *made_plans; i++) {
        struct frame f = frame_of(&film[0]);
        struct mw_content before;
        uint32_t number;

        d.adaptive = 0;
        if (mw_content_default(&d.c) != MW_OK)
            return;
        put_plan(&d.c, &made_plans[i]);
        show_plan(&d.c);
        before = d.c;
        number = CALL(mw_content_clear, (&d.c));
        printf("%u %s\n", (unsigned)number, memcmp(&d.c, &before, sizeof before) == 0 ? "as before" : "changed");
        d.c = before;
        draw(&film[0]);
        refill();
        printf("%u\n", (unsigned)plain(&d, film[0].kind, &f));
        words(&d);
    }
    spoil(&d);
    show_plan(&d.c);
}

/* A median, of a plane with padding; of one without pixels; and refused, in the order of the numbers. */
static void show_medians(void)
{
    static const uint8_t plane[] = {9, 1, 8, PADDING, 2, 7, 3, PADDING, 6, 4, 5, PADDING};
    static const struct {
        uint32_t width, height, stride;
        size_t length;
    } calls[] = {
        {3, 3, 4, 12}, {3, 2, 4, 8}, {2, 3, 4, 12}, {1, 1, 1, 1}, {4, 3, 4, 12}, {0, 3, 4, 12}, {3, 0, 4, 12},
        {0, 0, 0, 0}, {4097, 0, 0, 0}, {0, 4097, 0, 0}, {4097, 1, 4, 12}, {3, 3, 2, 12}, {3, 3, 2, 0},
        {3, 3, 4, 11}, {0, 3, 4, 11},
    };

    for (unsigned i = 0; i < sizeof calls / sizeof *calls; i++) {
        uint8_t median = FILL;
        uint32_t number =
            CALL(mw_luma_median, (plane, calls[i].length, calls[i].width, calls[i].height, calls[i].stride, &median));
        printf("%u %u\n", (unsigned)number, (unsigned)median);
    }
}

static void show_plans(void)
{
    show_texts();
    show_made_plans();
    show_medians();
}

/* ---- The list of a sitting ---- */

enum { LENT = MW_LIST_PLACES + 3, HELD = LENT + BEHIND, FEW = 16 };

/* A list, its stamps with a few places behind what a call is lent, and the memory for results. */
struct sitting {
    struct mw_list list;
    int64_t stamps[HELD];
    struct mw_nearest nearest;
    struct mw_span span;
    uint64_t clip;
};
static struct sitting sitting;

enum list_call { ADD, REMOVE, EMPTY, NEAREST, SPAN, CLIP };

struct operation {
    enum list_call call;
    int64_t a, b; /* the stamp; of a span, its ends */
};

/* A minimum of 100. */
static const struct operation by_hundred[] = {
    /* without stamps */
    {NEAREST, 5, 0}, {SPAN, INT64_MIN, INT64_MAX}, {CLIP, 5, 0}, {EMPTY, 0, 0}, {REMOVE, 5, 0},
    /* at the minimum: the first, after it, before it */
    {ADD, 1000, 0}, {ADD, 1100, 0}, {ADD, 900, 0},
    /* nearer by one: after the last, before the first; between two; equal */
    {ADD, 1199, 0}, {ADD, 801, 0}, {ADD, 1050, 0}, {ADD, 1000, 0},
    /* at the minimum from both; nearer to the one after, nearer to the one before */
    {ADD, 1300, 0}, {ADD, 1500, 0}, {ADD, 1200, 0}, {ADD, 1401, 0}, {ADD, 1399, 0}, {ADD, 1400, 0}, {ADD, -500, 0},
    /* a tie, and beside it; before all, after all, a stamp itself */
    {NEAREST, 1250, 0}, {NEAREST, 1251, 0}, {NEAREST, 1249, 0}, {NEAREST, -9000, 0}, {NEAREST, 9000, 0},
    {NEAREST, 1100, 0},
    /* ends at stamps and beside them; none, and the wrong way round */
    {SPAN, 1100, 1300}, {SPAN, 1101, 1299}, {SPAN, 1101, 1199}, {SPAN, 1300, 1100}, {SPAN, INT64_MIN, INT64_MAX},
    {SPAN, 1500, 1500}, {SPAN, 1501, 9000}, {SPAN, -9000, -500},
    /* at a stamp and before it */
    {CLIP, -501, 0}, {CLIP, -500, 0}, {CLIP, 1099, 0}, {CLIP, 1100, 0}, {CLIP, 1500, 0}, {CLIP, INT64_MAX, 0},
    /* absent; the first, the last, one between, the same again */
    {REMOVE, 1101, 0}, {REMOVE, -500, 0}, {REMOVE, 1500, 0}, {REMOVE, 1200, 0}, {REMOVE, 1200, 0},
    /* into the gap */
    {ADD, 1250, 0}, {ADD, 1200, 0}, {EMPTY, 0, 0}, {NEAREST, 1200, 0}, {ADD, 50, 0},
};

/* A minimum of 0: only equal stamps are refused. */
static const struct operation by_nothing[] = {
    {ADD, 5, 0}, {ADD, 5, 0}, {ADD, 6, 0}, {ADD, 4, 0}, {ADD, 4, 0}, {NEAREST, 5, 0}, {SPAN, 5, 5}, {REMOVE, 5, 0},
    {NEAREST, 5, 0},
};

/* The largest minimum, which is the largest difference. */
static const struct operation by_all[] = {
    {ADD, INT64_MIN, 0}, {ADD, INT64_MAX - 1, 0}, {ADD, INT64_MAX, 0}, {ADD, 0, 0}, {NEAREST, 0, 0}, {NEAREST, -1, 0},
    {NEAREST, INT64_MIN, 0}, {SPAN, INT64_MIN, -1}, {SPAN, INT64_MAX, INT64_MAX}, {CLIP, INT64_MIN, 0},
    {CLIP, INT64_MAX - 1, 0}, {REMOVE, INT64_MIN, 0}, {ADD, INT64_MIN + 1, 0}, {ADD, INT64_MIN, 0}, {EMPTY, 0, 0},
};

/* A minimum of 2^63. */
static const struct operation by_half[] = {
    {ADD, 0, 0}, {ADD, INT64_MAX, 0}, {ADD, INT64_MIN + 1, 0}, {ADD, INT64_MIN, 0}, {CLIP, -1, 0},
};

/* On a list of 10, 20 and so on up to 5120, with a minimum of 10. */
static const struct operation on_full[] = {
    /* too close or equal before full */
    {ADD, 5125, 0}, {ADD, 5120, 0}, {ADD, 5130, 0}, {ADD, 0, 0},
    {CLIP, INT64_MAX, 0}, {SPAN, 15, 5111}, {NEAREST, 2555, 0},
    /* one out and in again, the last replaced, the first replaced */
    {REMOVE, 5, 0}, {REMOVE, 2560, 0}, {ADD, 2561, 0}, {ADD, 2560, 0}, {REMOVE, 5120, 0}, {ADD, 5130, 0},
    {REMOVE, 10, 0}, {ADD, INT64_MIN, 0}, {ADD, INT64_MAX, 0}, {EMPTY, 0, 0},
};

/* A list without stamps, of words and memory that were filled with something. */
static void new_list(uint64_t min_duration)
{
    memset(&sitting, FILL, sizeof sitting);
    for (int i = 0; i < HELD; i++)
        sitting.stamps[i] = FILL;
    CALL(mw_list_new, (&sitting.list, min_duration));
    printf("done\n");
}

/* The words, and the places that are not as they were filled. If these are more than a few, a number that is made of
 * all places. */
static void show_list(void)
{
    uint64_t all = 0;
    int changed = 0;

    printf("list");
    for (int i = 0; i < MW_LIST_WORDS; i++)
        printf(" %llx", (unsigned long long)sitting.list.words[i]);
    for (int i = 0; i < HELD; i++) {
        all = 31 * all + (uint64_t)sitting.stamps[i];
        changed += sitting.stamps[i] != FILL;
    }
    printf(", %d places", changed);
    if (changed > FEW)
        printf(" %llx", (unsigned long long)all);
    else
        for (int i = 0; i < HELD; i++)
            if (sitting.stamps[i] != FILL)
                printf(" %d:%lld", i, (long long)sitting.stamps[i]);
    printf("\n");
}

static uint32_t list_call(const struct operation *o, size_t length)
{
    struct sitting *s = &sitting;

    switch (o->call) {
    case ADD:
        return CALL(mw_list_add, (&s->list, s->stamps, length, o->a));
    case REMOVE:
        return CALL(mw_list_remove, (&s->list, s->stamps, length, o->a));
    case EMPTY:
        return CALL(mw_list_empty, (&s->list, s->stamps, length));
    case NEAREST:
        return CALL(mw_list_nearest, (&s->list, s->stamps, length, o->a, &s->nearest));
    case SPAN:
        return CALL(mw_list_span, (&s->list, s->stamps, length, o->a, o->b, &s->span));
    default:
        return CALL(mw_list_clip, (&s->list, s->stamps, length, o->a, &s->clip));
    }
}

/* An operation, its number, and the list after it; of a look-up that is accepted, the result, and whether the list is
 * as before. */
static void operate(const struct operation *o, size_t length)
{
    static struct sitting before;
    uint32_t number;

    memcpy(&before, &sitting, sizeof sitting);
    number = list_call(o, length);
    printf("%lld %lld: %u ", (long long)o->a, (long long)o->b, (unsigned)number);
    if (o->call < NEAREST) {
        show_list();
        return;
    }
    if (o->call == NEAREST)
        printf("%llu %lld ", (unsigned long long)sitting.nearest.has, (long long)sitting.nearest.ts);
    else if (o->call == SPAN)
        printf("%llu %llu ", (unsigned long long)sitting.span.first, (unsigned long long)sitting.span.count);
    else
        printf("%llu ", (unsigned long long)sitting.clip);
    printf("%s\n", memcmp(&sitting.list, &before.list, sizeof before.list) == 0 &&
                           memcmp(sitting.stamps, before.stamps, sizeof before.stamps) == 0
                       ? "as before"
                       : "changed");
}

static void operate_all(const struct operation *operations, size_t count, size_t length)
{
    for (size_t i = 0; i < count; i++)
        operate(&operations[i], length);
}
#define OPERATE(operations, length) operate_all(operations, sizeof operations / sizeof *operations, length)

/* A list of three stamps and how many places are lent; the places behind them go on to rise by 100. */
struct made {
    uint64_t words[MW_LIST_WORDS];
    int64_t first[3];
    size_t length;
};

/* The first has no fault, each other one has one. */
#define LIST_VERSION 0x4d574c4953543031u /* MWLIST01 */
static const struct made lists[] = {
    {{LIST_VERSION, 100, 3}, {100, 200, 300}, LENT},
    {{LIST_VERSION + 1, 100, 3}, {100, 200, 300}, LENT},
    {{0, 100, 3}, {100, 200, 300}, LENT},
    {{LIST_VERSION, 100, MW_LIST_PLACES + 1}, {100, 200, 300}, LENT},
    {{LIST_VERSION, 100, (uint64_t)1 << 32}, {100, 200, 300}, LENT},
    {{LIST_VERSION, 100, UINT64_MAX}, {100, 200, 300}, LENT},
    {{LIST_VERSION, 100, 3}, {100, 200, 300}, MW_LIST_PLACES - 1},
    {{LIST_VERSION, 100, 3}, {100, 200, 300}, 0},
    {{LIST_VERSION, 0, 3}, {100, 100, 300}, LENT},
    {{LIST_VERSION, 0, 3}, {100, 99, 300}, LENT},
    {{LIST_VERSION, 0, 3}, {INT64_MAX, INT64_MIN, 300}, LENT},
    {{LIST_VERSION, 100, 3}, {100, 199, 300}, LENT},
    {{LIST_VERSION, 100, 3}, {100, 200, 299}, LENT},
};

static void make(const struct made *made)
{
    memset(&sitting, FILL, sizeof sitting);
    memcpy(sitting.list.words, made->words, sizeof made->words);
    for (int i = 0; i < HELD; i++)
        sitting.stamps[i] = i < 3 ? made->first[i] : 100 * (i + 1);
}

/* Every call on each of these lists. Without a fault the stamp to add is there already, and that to remove is not. */
static void show_made(void)
{
    static const struct operation operations[] = {
        {ADD, 200, 0}, {REMOVE, 250, 0}, {EMPTY, 0, 0}, {NEAREST, 250, 0}, {SPAN, 100, 300}, {CLIP, 200, 0},
    };
    static struct sitting before;

    for (unsigned i = 0; i < sizeof lists / sizeof *lists; i++)
        for (unsigned call = 0; call < sizeof operations / sizeof *operations; call++) {
            uint32_t number;

            make(&lists[i]);
            memcpy(&before, &sitting, sizeof sitting);
            number = list_call(&operations[call], lists[i].length);
            printf("%u %s\n", (unsigned)number,
                   memcmp(&sitting, &before, sizeof sitting) == 0 ? "as before" : "changed");
        }
}

/* A list of as many stamps as it holds, which come in another order. */
static void show_full(size_t length)
{
    unsigned accepted = 0;

    new_list(10);
    for (int i = 0; i < MW_LIST_PLACES; i++)
        accepted += mw_list_add(&sitting.list, sitting.stamps, length, 10 * (i * 77 % MW_LIST_PLACES + 1)) == 0;
    printf("full %u ", accepted);
    show_list();
    OPERATE(on_full, length);
}

static void show_lists(void)
{
    new_list(100);
    OPERATE(by_hundred, LENT);
    new_list(0);
    OPERATE(by_nothing, LENT);
    new_list(UINT64_MAX);
    OPERATE(by_all, LENT);
    new_list((uint64_t)1 << 63);
    OPERATE(by_half, LENT);
    show_full(MW_LIST_PLACES);
    show_full(LENT);
    show_made();
}

/* ---- Numbers ---- */

static void numbers(void)
{
    static const uint32_t sizes[][2] = {{12, 9}, {9, 12}, {4096, 3}, {3, 4096}, {4097, 3}, {3, 4097}};

    printf("%s\n", CALL(mw_version, ()) == MW_VERSION ? "MW_VERSION" : "another");
    printf("%llu\n", (unsigned long long)CALL(mw_content_words, ()));
    printf("%llu\n", (unsigned long long)CALL(mw_adaptive_words, ()));
    printf("%llu\n", (unsigned long long)CALL(mw_answer_words, ()));
    printf("%llu\n", (unsigned long long)CALL(mw_list_words, ()));
    printf("%llu\n", (unsigned long long)CALL(mw_list_places, ()));
    for (unsigned i = 0; i < sizeof sizes / sizeof *sizes; i++) {
        uint32_t width = sizes[i][0], height = sizes[i][1];
        printf("%llu ", (unsigned long long)CALL(mw_store_bytes, (width, height)));
        printf("%llu ", (unsigned long long)CALL(mw_scratch_bytes, (width, height)));
        printf("%llu\n", (unsigned long long)CALL(mw_magnitudes, (width, height)));
    }
    for (uint32_t number = 0; number <= 23; number++)
        printf("%u %s\n", (unsigned)number, CALL(mw_text, (number)));
}

int main(void)
{
    static struct detector d;

    numbers();
    for (d.adaptive = 0; d.adaptive < 2; d.adaptive++) {
        settle(&d, 0);
        for (int settings = 1; settings < (d.adaptive ? 3 : 5); settings++)
            for (int feeding = 0; feeding < 2; feeding++) {
                settle(&d, settings);
                show_film(&d, feeding);
            }
        show_refusals(&d);
    }
    show_plans();
    show_lists();
    return 0;
}
