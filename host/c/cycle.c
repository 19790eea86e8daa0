/* A whole charging cycle and each refusal, through the archive. Prints nothing but the last line if all is well; the exit status
 * is 1 if something differs. */
#include "chuldariin.h"

#include <stdio.h>
#include <string.h>

static int wrong;

#define EXPECT(test)                                                                                \
    do {                                                                                            \
        if (!(test)) {                                                                              \
            fprintf(stderr, "%s:%d: not so: %s\n", __FILE__, __LINE__, #test);                      \
            wrong = 1;                                                                              \
        }                                                                                           \
    } while (0)

typedef struct chuldariin_controller controller;
typedef struct chuldariin_reply reply;

/* A window of 256 readings, half at each level. */
static reply sample(controller *c, uint64_t time, int32_t high, int32_t low) {
    int32_t readings[256];
    for (size_t i = 0; i < 256; i++)
        readings[i] = i < 128 ? high : low;
    return chuldariin_sample(c, time, readings, 256);
}

static bool says(reply r, char letter, int digit, uint32_t wave, bool closed, int fault, uint32_t closings) {
    return r.refusal == CHULDARIIN_ACCEPTED && r.letter == letter && r.digit == digit && r.wave == wave
           && r.closed == closed && r.fault == fault && r.closings == closings;
}

/* Field by field: padding has no value. */
static bool same(const controller *a, const controller *b) {
    return a->settings.rated == b->settings.rated && a->settings.pause == b->settings.pause
           && a->settings.ventilation == b->settings.ventilation && a->settings.digital == b->settings.digital
           && a->limit == b->limit && a->grant == b->grant && a->wave == b->wave && a->closed == b->closed && a->settled == b->settled
           && memcmp(&a->faults, &b->faults, sizeof a->faults) == 0 && a->last == b->last
           && a->sound.set == b->sound.set && a->sound.time == b->sound.time && a->opening.set == b->opening.set
           && a->opening.time == b->opening.time && a->overrun.set == b->overrun.set
           && a->overrun.time == b->overrun.time && a->stop.set == b->stop.set && a->stop.time == b->stop.time
           && memcmp(&a->previous, &b->previous, sizeof a->previous) == 0 && a->closings == b->closings
           && a->lines.line1 == b->lines.line1 && a->lines.line2 == b->lines.line2 && a->lines.line3 == b->lines.line3;
}

/* A ready van with a sound diode; the contactor closes at 40. pause: as begin is given it. */
static controller charging_with(uint64_t pause) {
    controller c = {0};
    EXPECT(says(chuldariin_begin(&c, 0, 32000, pause, false, false), 'U', 0, 1000, false, 0, 0));
    EXPECT(says(chuldariin_limit(&c, 0, 32000), 'U', 0, 1000, false, 0, 0));
    EXPECT(says(sample(&c, 10, 9000, 9000), 'U', 0, 1000, false, 0, 0));
    EXPECT(says(sample(&c, 20, 9000, 9000), 'B', 2, 533, false, 0, 0));
    EXPECT(says(sample(&c, 30, 6000, -12000), 'B', 2, 533, false, 0, 0));
    EXPECT(says(sample(&c, 40, 6000, -12000), 'C', 2, 533, true, 0, 1));
    return c;
}

static controller charging(void) { return charging_with(0); }

static void silent_for_81(void) {
    controller c = charging();
    EXPECT(says(sample(&c, 50, 9000, -12000), 'C', 2, 533, true, 0, 1));
    EXPECT(says(chuldariin_tick(&c, 120), 'C', 2, 533, true, 0, 1));
    EXPECT(says(chuldariin_tick(&c, 121), 'C', 2, 533, false, 0, 1));
    EXPECT(c.opening.set && c.opening.time == 121 && !c.previous.kept);
}

/* Opened at 60, with the van ready again at once. */
static void closes_again_at(uint64_t closing, uint64_t pause) {
    controller c = charging_with(pause);
    EXPECT(c.settings.pause == closing - 60);
    EXPECT(says(sample(&c, 50, 9000, -12000), 'C', 2, 533, true, 0, 1));
    EXPECT(says(sample(&c, 60, 9000, -12000), 'B', 2, 533, false, 0, 1));
    reply r = {0};
    for (uint64_t t = 70; t <= closing; t += 10) {
        r = sample(&c, t, 6000, -12000);
        EXPECT(r.closed == (t == closing));
    }
    EXPECT(says(r, 'C', 2, 533, true, 0, 2));
}

static void opens_after_three_seconds(void) {
    controller c = charging();
    uint64_t t = 50;
    for (; t < 5000; t += 10)
        EXPECT(sample(&c, t, 6000, -12000).closed);
    EXPECT(says(chuldariin_limit(&c, 5000, 0), 'C', 1, 1000, true, 0, 1));
    for (; t < 8000; t += 10)
        EXPECT(sample(&c, t, 6000, 6000).closed);
    EXPECT(says(sample(&c, 8000, 6000, 6000), 'C', 1, 1000, false, 0, 1));
}

static void over_current_and_clear(void) {
    controller c = charging();
    EXPECT(chuldariin_measure(&c, 40, 35178).closed && !c.overrun.set);
    EXPECT(chuldariin_measure(&c, 50, 35179).closed && c.overrun.set);
    for (uint64_t t = 60; t <= 5040; t += 10)
        EXPECT(sample(&c, t, 6000, -12000).closed);
    EXPECT(says(chuldariin_tick(&c, 5049), 'C', 2, 533, true, 0, 1));
    EXPECT(says(chuldariin_tick(&c, 5050), 'F', 0, 0, false, CHULDARIIN_FAULT_OVERCURRENT, 1));
    EXPECT(says(chuldariin_fault(&c, 5060, CHULDARIIN_FAULT_WELDED), 'F', 0, 0, false, CHULDARIIN_FAULT_OVERCURRENT, 1));
    EXPECT(c.faults.overcurrent == 1 && c.faults.welded == 2 && c.faults.residual == 0);
    EXPECT(says(chuldariin_clear(&c, 5070), 'U', 0, 1000, false, 0, 1));
}

/* The fault that came first is shown, until a clear. */
static void first_fault(void) {
    controller c = charging();
    EXPECT(says(chuldariin_fault(&c, 50, CHULDARIIN_FAULT_WELDED), 'F', 0, 0, false, CHULDARIIN_FAULT_WELDED, 1));
    EXPECT(says(chuldariin_fault(&c, 60, CHULDARIIN_FAULT_RESIDUAL), 'F', 0, 0, false, CHULDARIIN_FAULT_WELDED, 1));
    EXPECT(says(chuldariin_fault(&c, 70, CHULDARIIN_FAULT_WELDED), 'F', 0, 0, false, CHULDARIIN_FAULT_WELDED, 1));
    EXPECT(c.faults.welded == 1 && c.faults.residual == 2);
    EXPECT(says(chuldariin_clear(&c, 80), 'U', 0, 1000, false, 0, 1));
    EXPECT(says(chuldariin_fault(&c, 90, CHULDARIIN_FAULT_RESIDUAL), 'F', 0, 0, false, CHULDARIIN_FAULT_RESIDUAL, 1));
    EXPECT(c.faults.residual == 1 && c.faults.welded == 0);
}

/* The fault that is told by the call in which an over-run is 5,000 old: a fault call of this kind, or a clear. */
static uint8_t told_with_overcurrent(uint32_t kind) {
    controller c = charging();
    EXPECT(chuldariin_measure(&c, 50, 35179).closed);
    for (uint64_t t = 60; t <= 5040; t += 10)
        EXPECT(sample(&c, t, 6000, -12000).closed);
    reply r = kind ? chuldariin_fault(&c, 5050, kind) : chuldariin_clear(&c, 5050);
    EXPECT(says(r, 'F', 0, 0, false, r.fault, 1) && c.faults.overcurrent == (kind ? 2 : 1));
    return r.fault;
}

/* An over-run from 50 on, and this limit at 4,999 of it: how long after that limit fault 2 comes. */
static uint64_t fault_after(uint32_t before, uint32_t current, uint32_t after) {
    controller c = charging();
    EXPECT(chuldariin_limit(&c, 40, before).closed);
    EXPECT(chuldariin_measure(&c, 50, current).closed && c.overrun.set);
    for (uint64_t t = 60; t < 5049; t += 10)
        EXPECT(sample(&c, t, 6000, -12000).closed);
    reply r = chuldariin_limit(&c, 5049, after);
    uint64_t t = 5049;
    while (r.fault == 0 && t < 20000) {
        t += 1;
        r = t % 10 == 0 ? sample(&c, t, 6000, -12000) : chuldariin_tick(&c, t);
    }
    EXPECT(r.fault == CHULDARIIN_FAULT_OVERCURRENT && !r.closed);
    return t - 5049;
}

/* A lowered duty restarts the over-run; a raised one, and one that stays, leave it running. */
static void still_slowing_down(void) {
    EXPECT(fault_after(32000, 35179, 16000) == 5000);
    EXPECT(fault_after(32000, 35179, 31979) == 5000);
    EXPECT(fault_after(32000, 35179, 31980) == 1);
    EXPECT(fault_after(32000, 35179, 32000) == 1);
    EXPECT(fault_after(16000, 17557, 32000) == 1);
}

static bool shows(struct chuldariin_lines l, uint32_t line1, uint32_t line2, uint32_t line3) {
    return l.line1 == line1 && l.line2 == line2 && l.line3 == line3;
}

/* 35,178 on every line is allowed, and 35,179 on any of them starts an over-run. */
static void over_current_on_each_line(void) {
    static const uint32_t over[3][3] = {{35179, 0, 12000}, {31000, 35179, 0}, {0, 35178, 35179}};
    for (int i = 0; i < 3; i++) {
        controller c = charging();
        EXPECT(shows(chuldariin_measure_lines(&c, 40, 35178, 35178, 35178).lines, 35178, 35178, 35178) && !c.overrun.set);
        reply r = chuldariin_measure_lines(&c, 50, over[i][0], over[i][1], over[i][2]);
        EXPECT(shows(r.lines, over[i][0], over[i][1], over[i][2]) && c.overrun.set);
        for (uint64_t t = 60; t <= 5040; t += 10)
            EXPECT(sample(&c, t, 6000, -12000).closed);
        EXPECT(says(chuldariin_tick(&c, 5049), 'C', 2, 533, true, 0, 1));
        EXPECT(says(chuldariin_tick(&c, 5050), 'F', 0, 0, false, CHULDARIIN_FAULT_OVERCURRENT, 1));
    }
}

/* The three of the last accepted measure, whatever the contactor and the wave; a measure with one current has it on line 1. */
static void lines_shown(void) {
    controller c = {0};
    EXPECT(shows(chuldariin_begin(&c, 0, 32000, 0, false, false).lines, 0, 0, 0));
    EXPECT(shows(chuldariin_measure_lines(&c, 0, 1, 2, 3).lines, 1, 2, 3));
    EXPECT(shows(chuldariin_limit(&c, 0, 32000).lines, 1, 2, 3));
    EXPECT(shows(chuldariin_measure(&c, 0, 4).lines, 4, 0, 0) && shows(c.lines, 4, 0, 0));
    EXPECT(shows(chuldariin_begin(&c, 0, 5999, 0, false, false).lines, 0, 0, 0) && shows(c.lines, 4, 0, 0));
    EXPECT(shows(chuldariin_begin(&c, 0, 32000, 0, false, false).lines, 0, 0, 0) && shows(c.lines, 0, 0, 0));
    c.lines.line3 = 200001;
    EXPECT(shows(chuldariin_tick(&c, 0).lines, 0, 0, 200001));
}

/* The call was refused with this number, and the controller, which is settled under a square wave, and all that the reply tells of it
 * are as before. */
static void refused(reply r, int number, const controller *before, const controller *after) {
    EXPECT(r.refusal == number);
    EXPECT(same(before, after));
    EXPECT(r.letter == before->settled && r.digit == 2 && r.fault == 0);
    EXPECT(r.wave == before->wave && r.closed == before->closed && r.closings == before->closings);
    EXPECT(shows(r.lines, before->lines.line1, before->lines.line2, before->lines.line3));
}

/* A digital post with a ready van: 5 %, and open until it has its grant. */
static controller linked(uint32_t granted) {
    controller c = {0};
    EXPECT(says(chuldariin_begin(&c, 0, 32000, 0, false, true), 'U', 0, 1000, false, 0, 0));
    EXPECT(says(chuldariin_limit(&c, 0, 32000), 'U', 0, 1000, false, 0, 0));
    EXPECT(says(sample(&c, 10, 9000, 9000), 'U', 0, 1000, false, 0, 0));
    EXPECT(says(sample(&c, 20, 9000, 9000), 'B', 2, 50, false, 0, 0));
    EXPECT(says(chuldariin_link(&c, 25, granted), 'B', 2, 50, false, 0, 0) && c.grant == granted);
    EXPECT(says(sample(&c, 30, 6000, -12000), 'B', 2, 50, false, 0, 0));
    bool closes = granted >= 6000;
    EXPECT(says(sample(&c, 40, 6000, -12000), 'C', 2, 50, closes, 0, closes));
    return c;
}

/* The grant is taken back at 50: open at 3,050, and 5 % again in the next call. */
static void grant_taken_back(void) {
    controller c = linked(16000);
    EXPECT(says(chuldariin_link(&c, 50, 5999), 'C', 1, 1000, true, 0, 1) && c.stop.set);
    for (uint64_t t = 60; t < 3050; t += 10)
        EXPECT(sample(&c, t, 6000, 6000).closed);
    EXPECT(says(sample(&c, 3050, 6000, 6000), 'C', 1, 1000, false, 0, 1));
    EXPECT(says(chuldariin_tick(&c, 3051), 'C', 2, 50, false, 0, 1));
}

/* More than a tenth above the grant, to the milliamp. */
static void over_the_grant(void) {
    controller c = linked(16059);
    EXPECT(chuldariin_measure(&c, 50, 17664).closed && !c.overrun.set);
    EXPECT(chuldariin_measure(&c, 50, 17665).closed && c.overrun.set);
}

/* A settled: the grant is 0, and a link call leaves it so. */
static void unplugged(void) {
    controller c = linked(16000);
    sample(&c, 50, 12000, -12000);
    EXPECT(says(sample(&c, 60, 12000, 12000), 'A', 1, 1000, false, 0, 1) && c.grant == 0);
    EXPECT(says(chuldariin_link(&c, 70, 16000), 'A', 1, 1000, false, 0, 1) && c.grant == 0);
}

static void digital_posts(void) {
    linked(5999);
    linked(6000);
    grant_taken_back();
    over_the_grant();
    unplugged();
    controller c = linked(16000);
    const controller before = c;
    refused(chuldariin_link(&c, 50, 80001), CHULDARIIN_REFUSED_GRANT, &before, &c);
    c.wave = 533;
    EXPECT(chuldariin_link(&c, 50, 80001).refusal == CHULDARIIN_REFUSED_SETTINGS);
}

static void each_refusal(void) {
    controller c = charging();
    EXPECT(shows(chuldariin_measure_lines(&c, 40, 7, 8, 9).lines, 7, 8, 9));
    const controller before = c;
    int32_t readings[1025] = {0};

    refused(chuldariin_tick(&c, 39), CHULDARIIN_REFUSED_EARLIER, &before, &c);
    refused(chuldariin_tick(&c, 1000000000001u), CHULDARIIN_REFUSED_LATE, &before, &c);
    refused(chuldariin_sample(&c, 50, readings, 255), CHULDARIIN_REFUSED_LENGTH, &before, &c);
    refused(chuldariin_sample(&c, 50, readings, 1025), CHULDARIIN_REFUSED_LENGTH, &before, &c);
    readings[7] = 15001;
    refused(chuldariin_sample(&c, 50, readings, 256), CHULDARIIN_REFUSED_READING, &before, &c);
    /* A hundred levels 300 mV apart, each two or three times. */
    for (int i = 0; i < 256; i++)
        readings[i] = -15000 + (i % 100) * 300;
    refused(chuldariin_sample(&c, 50, readings, 256), CHULDARIIN_REFUSED_UNSUPPORTED, &before, &c);
    refused(chuldariin_limit(&c, 50, 80001), CHULDARIIN_REFUSED_LIMIT, &before, &c);
    refused(chuldariin_measure(&c, 50, 200001), CHULDARIIN_REFUSED_MEASURE, &before, &c);
    refused(chuldariin_measure_lines(&c, 50, 200001, 1, 2), CHULDARIIN_REFUSED_MEASURE, &before, &c);
    refused(chuldariin_measure_lines(&c, 50, 1, 200001, 2), CHULDARIIN_REFUSED_MEASURE, &before, &c);
    refused(chuldariin_measure_lines(&c, 50, 1, 2, 200001), CHULDARIIN_REFUSED_MEASURE, &before, &c);
    refused(chuldariin_fault(&c, 50, 2), CHULDARIIN_REFUSED_KIND, &before, &c);
    refused(chuldariin_link(&c, 50, 80001), CHULDARIIN_REFUSED_PLAIN, &before, &c);

    c.wave = 961;
    const controller altered = c;
    reply of_altered = chuldariin_clear(&c, 50);
    EXPECT(of_altered.refusal == CHULDARIIN_REFUSED_SETTINGS && of_altered.wave == 961 && same(&altered, &c));
    c = before;
    reply r = chuldariin_begin(&c, 50, 5999, 0, false, false);
    EXPECT(r.refusal == CHULDARIIN_REFUSED_SETTINGS && r.letter == 0 && r.wave == 0 && r.closings == 0 && same(&before, &c));

    EXPECT(chuldariin_reading(1001).refusal == CHULDARIIN_REFUSED_DUTY);
    EXPECT(chuldariin_duty(5999).refusal == CHULDARIIN_REFUSED_TOO_LOW);
}

/* Limit and measure are told separately: 13 for a limit, behind 3, 2 and 1, and 7 for a measure. A
 * controller that is lent with such a limit is refused by 1. */
static void limit_refused(controller c) {
    const controller before = c;
    refused(chuldariin_limit(&c, 50, 80001), CHULDARIIN_REFUSED_LIMIT, &before, &c);
    refused(chuldariin_limit(&c, 50, 200000), CHULDARIIN_REFUSED_LIMIT, &before, &c);
    refused(chuldariin_limit(&c, 50, UINT32_MAX), CHULDARIIN_REFUSED_LIMIT, &before, &c);
    refused(chuldariin_limit(&c, 39, 80001), CHULDARIIN_REFUSED_EARLIER, &before, &c);
    refused(chuldariin_limit(&c, 1000000000001u, 80001), CHULDARIIN_REFUSED_LATE, &before, &c);
    refused(chuldariin_measure(&c, 50, UINT32_MAX), CHULDARIIN_REFUSED_MEASURE, &before, &c);
    refused(chuldariin_measure(&c, 39, 200001), CHULDARIIN_REFUSED_EARLIER, &before, &c);
    refused(chuldariin_measure(&c, 1000000000001u, 200001), CHULDARIIN_REFUSED_LATE, &before, &c);
    EXPECT(chuldariin_measure(&c, 50, 80001).refusal == CHULDARIIN_ACCEPTED);
    EXPECT(chuldariin_limit(&c, 50, 80000).refusal == CHULDARIIN_ACCEPTED && c.limit == 80000);
    c = before;
    c.limit = 80001;
    const controller altered = c;
    refused(chuldariin_limit(&c, 50, 80001), CHULDARIIN_REFUSED_SETTINGS, &altered, &c);
    refused(chuldariin_limit(&c, 50, 32000), CHULDARIIN_REFUSED_SETTINGS, &altered, &c);
    refused(chuldariin_measure(&c, 50, 200001), CHULDARIIN_REFUSED_SETTINGS, &altered, &c);
}

static void before_any_begin(void) {
    controller c = {0};
    EXPECT(chuldariin_tick(&c, 0).refusal == CHULDARIIN_REFUSED_SETTINGS);
}

static void duties(void) {
    struct chuldariin_reading_reply r = chuldariin_reading(533);
    EXPECT(r.refusal == 0 && r.kind == CHULDARIIN_READS_CURRENT && r.current == 31980);
    EXPECT(chuldariin_reading(79).kind == CHULDARIIN_READS_NO_CHARGING);
    EXPECT(chuldariin_reading(80).current == 6000 && chuldariin_reading(970).current == 80000);
    EXPECT(chuldariin_reading(50).kind == CHULDARIIN_READS_DIGITAL_ONLY);
    EXPECT(chuldariin_duty(32000).duty == 533 && chuldariin_duty(52749).duty == 850 && chuldariin_duty(52750).duty == 851);
}

int main(void) {
    silent_for_81();
    closes_again_at(3060, 3000);
    closes_again_at(10060, 0);
    opens_after_three_seconds();
    over_current_and_clear();
    first_fault();
    EXPECT(told_with_overcurrent(CHULDARIIN_FAULT_RESIDUAL) == CHULDARIIN_FAULT_RESIDUAL);
    EXPECT(told_with_overcurrent(CHULDARIIN_FAULT_TEMPERATURE) == CHULDARIIN_FAULT_TEMPERATURE);
    EXPECT(told_with_overcurrent(CHULDARIIN_FAULT_NONE) == CHULDARIIN_FAULT_OVERCURRENT);
    over_current_on_each_line();
    still_slowing_down();
    lines_shown();
    digital_posts();
    each_refusal();
    limit_refused(charging());
    limit_refused(linked(16000));
    before_any_begin();
    duties();
    puts(wrong ? "cycle.c: something differs" : "cycle.c: a charging cycle and each refusal, as they should be");
    return wrong;
}
