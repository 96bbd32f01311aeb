/* The quick start of mawerodu.h, on three luma frames: one, one that is lighter by 27, and that again. A luma difference of
 * 27 is a cut with the settings for luma frames, and none with the default ones. examples/run takes the lines out of the
 * header, as quick_start.inc. It must print that a new clip starts at 400000. */
#include <mawerodu.h>

#include <stdio.h>

static uint8_t dark[640 * 480], lighter[640 * 480];

static int next_frame(const uint8_t **luma, int64_t *ts)
{
    static int count = 0;

    memset(lighter, 27, sizeof lighter);
    *luma = count == 0 ? dark : lighter;
    *ts = count * 400000;
    return count++ < 3;
}

int main(void)
{
    const uint8_t *luma;
    int64_t ts;

#include "quick_start.inc"
    return 0;
}
