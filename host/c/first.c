/* A first charge: a van is plugged in, gets ready, and the contactor closes. */
#include "chuldariin.h"

#include <stdio.h>

static void show(uint64_t time, const char *what, struct chuldariin_reply r) {
    if (r.refusal != CHULDARIIN_ACCEPTED) {
        printf("%4lu ms  %-22s refused %u\n", (unsigned long)time, what, r.refusal);
        return;
    }
    printf("%4lu ms  %-22s %c%c  wave %4u  contactor %-6s  closings %u\n", (unsigned long)time, what, r.letter,
           r.digit ? '0' + r.digit : ' ', r.wave, r.closed ? "closed" : "open", r.closings);
}

/* What the converter would fill: half of the readings at each level, in millivolts. */
static struct chuldariin_reply sample(struct chuldariin_controller *post, uint64_t time, int32_t high, int32_t low) {
    int32_t readings[256];
    for (int i = 0; i < 256; i++)
        readings[i] = i < 128 ? high : low;
    return chuldariin_sample(post, time, readings, 256);
}

int main(void) {
    struct chuldariin_controller post = {0};
    /* pause 0 stands for 10 s */
    show(0, "begin, rated 32 A", chuldariin_begin(&post, 0, 32000, 0, false, false));
    show(0, "limit 32 A", chuldariin_limit(&post, 0, 32000));
    show(10, "sample 9 V", sample(&post, 10, 9000, 9000));
    show(20, "sample 9 V", sample(&post, 20, 9000, 9000));
    show(30, "sample 6 V / -12 V", sample(&post, 30, 6000, -12000));
    show(40, "sample 6 V / -12 V", sample(&post, 40, 6000, -12000));
    show(50, "sample 9 V / -12 V", sample(&post, 50, 9000, -12000));
    show(120, "tick", chuldariin_tick(&post, 120));
    show(121, "tick", chuldariin_tick(&post, 121));
    show(100, "tick", chuldariin_tick(&post, 100));
    return 0;
}
