/* The calls of one version, for compare.c. Compiled over that version's header, and linked with its archive. */
#include "timed.h"
#include "chuldariin.h"

#include <stdlib.h>

typedef struct chuldariin_controller controller;

enum { LENGTH = 256 };

static int32_t readings[LENGTH];
/* What the calls tell goes here, so that none is left out. */
static volatile uint32_t told;

static void sample(controller *c, uint64_t time, int32_t high, int32_t low) {
    for (int i = 0; i < LENGTH; i++)
        readings[i] = i < LENGTH / 2 ? high : low;
    told = chuldariin_sample(c, time, readings, LENGTH).wave;
}

static controller begun(bool digital) {
    controller c = {0};
    told = chuldariin_begin(&c, 0, 32000, 0, false, digital).wave;
    return c;
}

static controller idle(void) { return begun(false); }

/* A van that charges under this wave. */
static controller closed(controller c, uint32_t wave) {
    told = chuldariin_limit(&c, 0, 32000).wave;
    sample(&c, 10, 9000, 9000);
    sample(&c, 20, 9000, 9000);
    sample(&c, 30, 6000, -12000);
    sample(&c, 40, 6000, -12000);
    if (!c.closed || c.wave != wave)
        abort();
    return c;
}

static controller charging(void) { return closed(idle(), 533); }

static controller linked(void) {
    controller c = begun(true);
    told = chuldariin_link(&c, 0, 32000).wave;
    return closed(c, 50);
}

/* Makes so many calls on one controller, c; i is the number of the call. */
#define MADE(function, start, call) \
    static void function(uint32_t calls) { \
        controller c = start; \
        for (uint32_t i = 0; i < calls; i++) \
            told = (call).closings; \
    }

MADE(tick_idle, idle(), chuldariin_tick(&c, 100))
MADE(tick, charging(), chuldariin_tick(&c, 100))
MADE(same_limit, charging(), chuldariin_limit(&c, 100, 32000))
MADE(other_limit, charging(), chuldariin_limit(&c, 100, i % 2 == 0 ? 16000 : 32000))
MADE(measure_idle, idle(), chuldariin_measure(&c, 100, 15000 + i % 7))
MADE(measure, charging(), chuldariin_measure(&c, 100, 15000 + i % 7))
MADE(measure_over, charging(), chuldariin_measure(&c, 100, 36000 + i % 7))
MADE(measure_lines, charging(), chuldariin_measure_lines(&c, 100, 15000, i % 7, 9000))
MADE(digital_tick, linked(), chuldariin_tick(&c, 100))
MADE(digital_measure, linked(), chuldariin_measure(&c, 100, 15000 + i % 7))
MADE(link_call, linked(), chuldariin_link(&c, 100, i % 2 == 0 ? 16000 : 32000))

static void reading(uint32_t calls) {
    for (uint32_t i = 0; i < calls; i++)
        told = chuldariin_reading(i % 1001).current;
}

static void duty(uint32_t calls) {
    for (uint32_t i = 0; i < calls; i++)
        told = chuldariin_duty(i % 81000).duty;
}

const struct timed_call timed[] = {
    {"tick, idle", tick_idle},
    {"tick, charging", tick},
    {"limit, the same", same_limit},
    {"limit, lower and higher by turns", other_limit},
    {"measure, idle", measure_idle},
    {"measure, judged", measure},
    {"measure, judged, over the bound", measure_over},
    {"measure of three lines, judged", measure_lines},
    {"tick, digital, charging", digital_tick},
    {"measure, digital, judged", digital_measure},
    {"link", link_call},
    {"reading", reading},
    {"duty", duty},
    {0, 0},
};
