/* The stack that each call takes. The stack below the caller is filled with a pattern, and what a call leaves changed is counted; what it
 * reserves below that and never writes is not seen. Of the count that of an empty call is taken off, but for the return address,
 * which is the call's own. The exit status is 1 if a call takes more than LIMIT bytes or is answered otherwise than expected. */
#include "chuldariin.h"

#include <stdio.h>

enum { LENGTH = 1024, AREA = 65536, LIMIT = 1000 };

typedef struct chuldariin_controller controller;

static controller post;
static int32_t readings[LENGTH];
static uint8_t refusal;

/* No C, so that it has no frame at any optimisation. It returns the place of the reply, as a call does, and writes nothing there. */
struct chuldariin_reply empty_call(controller *c, uint64_t time);
struct chuldariin_duty_reply empty_duty(uint32_t current);
__asm__(".text\nempty_call: mov %rdi, %rax\nempty_duty: ret\n");

static void nothing(void) { refusal = empty_call(&post, 50).refusal; }
static void nothing_small(void) { refusal = empty_duty(32000).refusal; }
static void begin(void) { refusal = chuldariin_begin(&post, 50, 32000, 0, false, false).refusal; }
static void sample(void) { refusal = chuldariin_sample(&post, 50, readings, LENGTH).refusal; }
static void limit(void) { refusal = chuldariin_limit(&post, 50, 16000).refusal; }
static void measure(void) { refusal = chuldariin_measure(&post, 50, 36000).refusal; }
static void measure_lines(void) { refusal = chuldariin_measure_lines(&post, 50, 16000, 36000, 12000).refusal; }
static void link_call(void) { refusal = chuldariin_link(&post, 50, 16000).refusal; }
static void fault(void) { refusal = chuldariin_fault(&post, 50, CHULDARIIN_FAULT_RESIDUAL).refusal; }
static void clear(void) { refusal = chuldariin_clear(&post, 50).refusal; }
static void tick(void) { refusal = chuldariin_tick(&post, 50).refusal; }
static void reading(void) { refusal = chuldariin_reading(533).refusal; }
static void duty(void) { refusal = chuldariin_duty(32000).refusal; }

static void levels(int32_t high, int32_t low) {
    for (int i = 0; i < LENGTH; i++)
        readings[i] = i < LENGTH / 2 ? high : low;
}

/* A van that is plugged in, and after so many ready samples: the second of them closes the contactor. */
static controller after(uint64_t ready_samples) {
    controller c = {0};
    chuldariin_begin(&c, 0, 32000, 0, false, false);
    chuldariin_limit(&c, 0, 32000);
    levels(9000, 9000);
    chuldariin_sample(&c, 10, readings, LENGTH);
    chuldariin_sample(&c, 20, readings, LENGTH);
    levels(6000, -12000);
    for (uint64_t i = 0; i < ready_samples; i++)
        chuldariin_sample(&c, 30 + 10 * i, readings, LENGTH);
    return c;
}

/* How far below the stack pointer a call changes the pattern. For x86-64, as the archive is. */
static size_t changed(void (*call)(void), unsigned char pattern) {
    volatile unsigned char *below;
    __asm__ volatile("mov %%rsp, %0" : "=r"(below));
    below -= AREA;
    for (size_t i = 0; i < AREA; i++)
        below[i] = pattern;
    call();
    size_t same = 0;
    while (same < AREA && below[same] == pattern)
        same++;
    return AREA - same;
}

/* The lowest byte that a call writes may be one of the patterns, but not both. */
static size_t deepest(void (*call)(void), const controller *start) {
    post = *start;
    size_t one = changed(call, 0xa5);
    post = *start;
    size_t other = changed(call, 0x5a);
    return one > other ? one : other;
}

/* Against an empty call that returns the same: a reply takes room in the frame of its caller. */
static bool show_beside(void (*empty)(void), const char *name, void (*call)(void), const controller *start, uint8_t expected) {
    size_t base = deepest(empty, start) - sizeof(void *), bytes = deepest(call, start) - base;
    bool well = bytes <= LIMIT && refusal == expected;
    printf("chuldariin_%s: %zu bytes of stack%s\n", name, bytes, well ? "" : ": too many, or another answer than expected");
    return well;
}

static bool show(const char *name, void (*call)(void), const controller *start, uint8_t expected) {
    return show_beside(nothing, name, call, start, expected);
}

int main(void) {
    const controller plugged = after(1), closed = after(2);
    bool well = !plugged.closed && closed.closed;
    controller digital = {0};
    chuldariin_begin(&digital, 0, 32000, 0, false, true);
    well &= show("begin", begin, &closed, 0);
    well &= show("limit", limit, &closed, 0);
    well &= show("measure", measure, &closed, 0) && post.overrun.set;
    well &= show("measure_lines", measure_lines, &closed, 0) && post.overrun.set;
    well &= show("link", link_call, &digital, 0) && post.grant == 16000;
    well &= show("fault", fault, &closed, 0);
    well &= show("clear", clear, &closed, 0);
    well &= show("tick", tick, &closed, 0);
    well &= show_beside(nothing_small, "reading", reading, &closed, 0);
    well &= show_beside(nothing_small, "duty", duty, &closed, 0);
    well &= show("sample, which closes", sample, &plugged, 0) && post.closed;
    /* Groups of 7 equal readings, 201 mV apart. */
    for (int i = 0; i < LENGTH; i++)
        readings[i] = -15000 + 201 * (i / 7);
    well &= show("sample, no reading supported", sample, &closed, CHULDARIIN_REFUSED_UNSUPPORTED);
    return well ? 0 : 1;
}
