/* Chuldariin: the control pilot controller of an AC charging post (IEC 61851-1 Annex A, Mode 3).
 *
 * The host owns a struct chuldariin_controller, and every call gets its address. Every call returns a
 * finished reply: accepted (refusal 0), or refused with a number from CHULDARIIN_REFUSED_... below, and
 * then the controller is as it was. Nothing is allocated, nothing is kept elsewhere, nothing blocks. A
 * sample makes n * n comparisons of n readings at the most, of eight instructions each: 8.4 million
 * instructions for 1,024 readings of which none is supported, 0.5 million for 256. The other calls on a
 * controller take about 780 instructions, a measure up to 830.
 *
 *     struct chuldariin_controller post = {0};
 *     struct chuldariin_reply r = chuldariin_begin(&post, now_ms, 32000, 0, false, false);
 *     if (r.refusal != CHULDARIIN_ACCEPTED)
 *         stop_and_report(r.refusal);             // a refused begin tells no wave and no contactor
 *
 *     r = chuldariin_sample(&post, now_ms, readings, 256);
 *     if (r.refusal != CHULDARIIN_ACCEPTED)
 *         r = chuldariin_tick(&post, now_ms);     // a refused call judges nothing: tick at once
 *     bool judged = r.refusal == CHULDARIIN_ACCEPTED;
 *     drive_pilot(judged ? r.wave : 0);           // 0: steady -12 V, the post is not available
 *     drive_contactor(judged && r.closed);        // closed by an accepted reply only
 *
 * What the calls ask of their arguments: nothing of any value. All times, numbers and readings are
 * answered, in any order, and so is a controller whose fields were altered. What the types of C can't
 * give, the host owes, and no reply can tell that it was broken:
 *   - the pointers are valid, not null, and aligned for what they point at;
 *   - the controller and the readings are initialised ({0} will do before begin), and bools are 0 or 1;
 *   - `readings` points at `count` readings, and none of them lies inside the controller;
 *   - while a call runs nothing else writes the readings (a converter's DMA, an interrupt), and nothing
 *     else reads or writes the controller: a host with several threads or interrupts locks.
 *
 * What the host owes besides (README has more; tables and sequences are those of IEC 61851-1 Annex A,
 * draft for Edition 3):
 *   - It calls at least every 20 ms. It ticks after a refused sample. After a refused tick it opens the
 *     contactor on its own: the clock is wrong (2, 3), or something wrote into the controller (1).
 *   - It keeps one controller, and nothing but the calls writes it.
 *   - A window lies wholly after the wave that was last commanded, and windows do not overlap. Else two
 *     samples in a row can lack the -12 V of the new wave: fault 1, in a step from B1 to B2.
 *   - The 100 ms of table A3.4 include the window and the contactor's travel. At worst these add up: from
 *     the window's first reading to its call, 81 ms, the time to the next call, and the travel. With a
 *     call every 20 ms that is above 100 whatever the window. Windows of 4 ms, a call every 5 ms and
 *     10 ms of travel make 100.
 *   - Whoever makes the limit calls waits: 3 s after a wave was withdrawn in state B (sequence 9.2), and
 *     5 s between two changes of the duty (sequence 6). The controller delays no limit. Each lowered duty
 *     restarts the 5 s of fault 2, so fault 2 waits for as long as the duty is lowered more often than that.
 *   - Signals of digital communication (148 kHz and more, table A2.1) are filtered before the converter.
 *   - It decides when to call clear. A latched fault, 1 and 2 too, stays when the van is unplugged.
 *
 * The header takes C11 (_Static_assert, _Alignof) or C++11. Link with libchuldariin.a, for x86-64 Linux
 * (System V calling convention).
 */
#ifndef CHULDARIIN_H
#define CHULDARIIN_H

#include <stdbool.h>
#include <stddef.h>
#include <stdint.h>

#ifdef __cplusplus
extern "C" {
#define CHULDARIIN_ASSERT(test) static_assert(test, #test)
#define CHULDARIIN_ALIGNOF(type) alignof(type)
#else
#define CHULDARIIN_ASSERT(test) _Static_assert(test, #test)
#define CHULDARIIN_ALIGNOF(type) _Alignof(type)
#endif

/* Why a call is refused. Of several reasons 3 goes first, then 2, then 1, and then upwards, but 12 before 11. */
enum {
    /* The call was accepted. */
    CHULDARIIN_ACCEPTED = 0,
    /* begin: rated is not 6,000 to 80,000 mA, or pause is neither 0 nor 1,000 to 60,000 ms.
     * Other calls: the controller is cleared memory that nothing has begun in, or something wrote
     * into it. Out of range is one of wave, limit, grant, rated and pause, a stored time is after that
     * of the last accepted call, or there are more than 1,000,000,001 closings. Open the contactor,
     * begin again, and look for the stray write. */
    CHULDARIIN_REFUSED_SETTINGS = 1,
    /* The time is before that of begin, or of the last call that was accepted. Use a clock that never
     * goes back; until it is mended nothing is judged. */
    CHULDARIIN_REFUSED_EARLIER = 2,
    /* The time is above 1,000,000,000,000 ms. Count from the start of the post, in milliseconds; until
     * it is mended nothing is judged. */
    CHULDARIIN_REFUSED_LATE = 3,
    /* The window has fewer than 256 or more than 1,024 readings. */
    CHULDARIIN_REFUSED_LENGTH = 4,
    /* A reading is below -15,000 or above 15,000 mV. Check the scale and the ADC. */
    CHULDARIIN_REFUSED_READING = 5,
    /* No reading has 8 readings, itself counted, within 200 mV. The pilot line is too noisy. */
    CHULDARIIN_REFUSED_UNSUPPORTED = 6,
    /* A measured current, on any line, is above 200,000 mA. The last accepted currents stay, and nothing is
     * judged. Are the meter and its scaling in milliamps? A limit has a number of its own, 13. */
    CHULDARIIN_REFUSED_MEASURE = 7,
    /* A fault's kind is not 3, 4 or 5. Faults 1 and 2 are the controller's own. */
    CHULDARIIN_REFUSED_KIND = 8,
    /* chuldariin_reading: the duty is above 1000. */
    CHULDARIIN_REFUSED_DUTY = 9,
    /* chuldariin_duty: the current is below 6,000 mA, which no duty announces. */
    CHULDARIIN_REFUSED_TOO_LOW = 10,
    /* A grant is above 80,000 mA. The grant before it stays. Are the link and its scaling in milliamps? */
    CHULDARIIN_REFUSED_GRANT = 11,
    /* A link call to a post that was begun plain. Begin it digital, or leave the link out. */
    CHULDARIIN_REFUSED_PLAIN = 12,
    /* The depot's limit is above 80,000 mA. The limit before it stays; after begin that is 0, and nothing
     * charges. Are the depot's load manager and its scaling in milliamps? */
    CHULDARIIN_REFUSED_LIMIT = 13
};

/* The faults. */
enum {
    CHULDARIIN_FAULT_NONE = 0,
    CHULDARIIN_FAULT_DIODE = 1,        /* the van's pilot diode is missing */
    CHULDARIIN_FAULT_OVERCURRENT = 2,  /* more than 1.1 times the allowed current for 5 s, see measure_lines */
    CHULDARIIN_FAULT_RESIDUAL = 3,     /* residual current */
    CHULDARIIN_FAULT_WELDED = 4,       /* welded contact */
    CHULDARIIN_FAULT_TEMPERATURE = 5   /* over-temperature */
};

/* What a duty tells a van. */
enum {
    CHULDARIIN_READS_NO_CHARGING = 0,
    CHULDARIIN_READS_DIGITAL_ONLY = 1,
    CHULDARIIN_READS_CURRENT = 2
};

/* ---- The controller. The host may read it; only the calls write it. ---- */

/* What the host set at begin. */
struct chuldariin_settings {
    uint64_t pause;   /* least time between an opening and the next closing, ms */
    uint32_t rated;   /* rated current of the post, mA */
    bool ventilation; /* whether the post has ventilation */
    bool digital;     /* the mark: whether the post is digital, else it is plain */
};

/* A time that may be empty. */
struct chuldariin_moment {
    bool set;      /* whether there is one */
    uint64_t time; /* ms; of no meaning unless set */
};

/* The place of each fault in the order of latching: 1 for the one that was latched first, 2 for the next,
 * 0 for one that is not latched. Latched is any number but 0: do not compare with true. */
struct chuldariin_faults {
    uint8_t diode;       /* fault 1 */
    uint8_t overcurrent; /* fault 2 */
    uint8_t residual;    /* fault 3 */
    uint8_t welded;      /* fault 4 */
    uint8_t temperature; /* fault 5 */
};

/* What a sample was found to be. */
struct chuldariin_verdict {
    uint8_t band;  /* of the high level: 'A' to 'E', 0 for none */
    bool sound;    /* high above 1,500 and below 7,500 mV; under a driven wave, low in its band too */
    bool proven;   /* under a driven wave: a ready van, and low in its band */
    bool diodebad; /* under a driven wave: B, C or D, and low not in its band, -13,000 to -11,000 mV */
};

/* The previous sample. */
struct chuldariin_previous {
    bool kept; /* whether there is one; the verdict is of no meaning otherwise */
    struct chuldariin_verdict verdict;
};

/* The current on each line, mA. */
struct chuldariin_lines {
    uint32_t line1;
    uint32_t line2;
    uint32_t line3;
};

struct chuldariin_controller {
    struct chuldariin_settings settings; /* what begin was given, with pause 0 as 10,000 */
    uint32_t limit;                      /* the depot's limit, mA */
    uint32_t grant;                      /* the current granted by link, mA */
    uint32_t wave;                       /* the wave command, tenths of a percent */
    bool closed;                         /* the contactor command */
    uint8_t settled;                     /* the settled state, 'A' to 'E'; any other number is U */
    struct chuldariin_faults faults;     /* the place of each latched fault */
    struct chuldariin_previous previous; /* the previous sample */
    uint64_t last;                       /* time of the last accepted call, or of begin, ms */
    struct chuldariin_moment sound;      /* the last sound sample */
    struct chuldariin_moment opening;    /* the last opening */
    struct chuldariin_moment overrun;    /* the start of the over-run, or its last restart */
    struct chuldariin_moment stop;       /* the start of the stop */
    uint32_t closings;                   /* how often the contactor has closed since begin */
    struct chuldariin_lines lines;       /* the currents of the last accepted measure */
};

/* What a call tells. Beside refusals 1 to 8 and 11 to 13 stands the rest as the controller has it; a refused
 * begin has zeros there.
 * It has 28 bytes, so a call returns it in memory, at an address that the caller passes first and C
 * hides; the 16 bytes of a version without `lines` came back in two registers. A host that was compiled
 * with any earlier header has to be compiled again: begin has a parameter more, the controller's fields
 * stand at other offsets, a fault in it is a place and no longer a bool, and a limit is refused by 13 and no
 * longer by 7. A controller that it wrote is not to be lent to this version: begin anew. */
struct chuldariin_reply {
    uint8_t refusal;   /* 0 if accepted, else CHULDARIIN_REFUSED_... */
    uint8_t letter;    /* the state: 'A' to 'E', 'U' unsettled, 'F' a fault is latched */
    uint8_t digit;     /* 2 under a square wave, 1 under a steady one; U, E and F have none: 0 */
    uint32_t wave;     /* 0 steady -12 V, 1000 steady +12 V, else a duty, tenths of a percent: 100 to 960
                        * in a plain post, 50 in a digital one */
    bool closed;       /* the contactor command */
    uint8_t fault;     /* the fault that was latched first among those latched now; 0 if none is */
    uint32_t closings; /* how often the contactor has closed since begin */
    struct chuldariin_lines lines; /* the currents of the last accepted measure; 0 before the first */
};

/* What a van reads from a duty. */
struct chuldariin_reading_reply {
    uint8_t refusal;  /* 0, or 9 */
    uint8_t kind;     /* CHULDARIIN_READS_... */
    uint32_t current; /* mA; 0 for the other kinds */
};

/* The greatest duty for an available current. */
struct chuldariin_duty_reply {
    uint8_t refusal; /* 0, or 10 */
    uint32_t duty;   /* tenths of a percent; 0 if refused */
};

/* The layout that the archive was compiled for. */
CHULDARIIN_ASSERT(sizeof(bool) == 1);
CHULDARIIN_ASSERT(sizeof(struct chuldariin_settings) == 16);
CHULDARIIN_ASSERT(offsetof(struct chuldariin_settings, rated) == 8);
CHULDARIIN_ASSERT(offsetof(struct chuldariin_settings, ventilation) == 12);
CHULDARIIN_ASSERT(offsetof(struct chuldariin_settings, digital) == 13);
CHULDARIIN_ASSERT(sizeof(struct chuldariin_controller) == 128);
CHULDARIIN_ASSERT(CHULDARIIN_ALIGNOF(struct chuldariin_controller) == 8);
CHULDARIIN_ASSERT(offsetof(struct chuldariin_controller, limit) == 16);
CHULDARIIN_ASSERT(offsetof(struct chuldariin_controller, grant) == 20);
CHULDARIIN_ASSERT(offsetof(struct chuldariin_controller, wave) == 24);
CHULDARIIN_ASSERT(offsetof(struct chuldariin_controller, closed) == 28);
CHULDARIIN_ASSERT(offsetof(struct chuldariin_controller, settled) == 29);
CHULDARIIN_ASSERT(offsetof(struct chuldariin_controller, faults) == 30);
CHULDARIIN_ASSERT(offsetof(struct chuldariin_controller, previous) == 35);
CHULDARIIN_ASSERT(offsetof(struct chuldariin_controller, last) == 40);
CHULDARIIN_ASSERT(offsetof(struct chuldariin_controller, sound) == 48);
CHULDARIIN_ASSERT(offsetof(struct chuldariin_controller, opening) == 64);
CHULDARIIN_ASSERT(offsetof(struct chuldariin_controller, overrun) == 80);
CHULDARIIN_ASSERT(offsetof(struct chuldariin_controller, stop) == 96);
CHULDARIIN_ASSERT(offsetof(struct chuldariin_controller, closings) == 112);
CHULDARIIN_ASSERT(offsetof(struct chuldariin_controller, lines) == 116);
CHULDARIIN_ASSERT(sizeof(struct chuldariin_lines) == 12);
CHULDARIIN_ASSERT(sizeof(struct chuldariin_reply) == 28);
CHULDARIIN_ASSERT(CHULDARIIN_ALIGNOF(struct chuldariin_reply) == 4);
CHULDARIIN_ASSERT(offsetof(struct chuldariin_reply, wave) == 4);
CHULDARIIN_ASSERT(offsetof(struct chuldariin_reply, closed) == 8);
CHULDARIIN_ASSERT(offsetof(struct chuldariin_reply, fault) == 9);
CHULDARIIN_ASSERT(offsetof(struct chuldariin_reply, closings) == 12);
CHULDARIIN_ASSERT(offsetof(struct chuldariin_reply, lines) == 16);
CHULDARIIN_ASSERT(sizeof(struct chuldariin_reading_reply) == 8);
CHULDARIIN_ASSERT(sizeof(struct chuldariin_duty_reply) == 8);

/* ---- The calls. Times are in milliseconds, 0 to 1,000,000,000,000, and never go back but at begin. ---- */

/* Starts afresh: nothing settled, wave 1000, contactor open, no fault, closings 0, no current on any
 * line, and no pause to wait for. So it opens a closed contactor, and drops what was latched. The limit
 * is 0, and so is the grant: nothing charges before a limit call. rated: 6,000 to 80,000 mA. pause: 1,000
 * to 60,000 ms, or 0 for 10,000. digital: the mark. A digital post drives 5 % where a plain one drives a
 * duty, and charges by the current that was agreed over the link (chuldariin_link). Refused: 3, 1. */
struct chuldariin_reply chuldariin_begin(struct chuldariin_controller *c, uint64_t time, uint32_t rated,
                                         uint64_t pause, bool ventilation, bool digital);

/* A window of 256 to 1,024 readings of the pilot line, -15,000 to 15,000 mV, only read. It is judged
 * under the wave that was commanded before this call, so all its readings come after that command. It
 * spans whole periods of the wave, and shares no reading with another window. At the 5 % of a digital
 * post 8 readings or more have to lie in the 50 us of each period that are high. After 4, 5 or 6: tick.
 * Refused: 3, 2, 1, 4, 5, 6. */
struct chuldariin_reply chuldariin_sample(struct chuldariin_controller *c, uint64_t time,
                                          const int32_t *readings, size_t count);

/* The depot's limit, 0 to 80,000 mA. It acts in this call: nothing is delayed. Below 6,000 no wave is
 * driven, and a closed contactor opens once that has lasted 3 s. A limit that lowers the duty gives the
 * van 5 s to follow: see measure_lines. In a digital post the wave tells the van of no limit: agree less
 * over the link first. Refused: 3, 2, 1, 13. */
struct chuldariin_reply chuldariin_limit(struct chuldariin_controller *c, uint64_t time, uint32_t current);

/* The current measured on each line, 0 to 200,000 mA; a line that the van does not use has 0. All three
 * are kept and shown, whatever the contactor and the wave; with the contactor closed and the wave driven
 * the largest is judged: more than 1.1 times the allowed current for 5 s is fault 2. A plain post allows
 * what its duty announces, a digital one the least of grant, rated and limit. A duty that is lowered
 * within these 5 s restarts them; a raised one, or the same again, does not, and a digital post lowers
 * none. If any of the three is above 200,000 none is kept. Refused: 3, 2, 1, 7. */
struct chuldariin_reply chuldariin_measure_lines(struct chuldariin_controller *c, uint64_t time, uint32_t line1,
                                                 uint32_t line2, uint32_t line3);

/* For a post that measures one current, or hands over the largest: chuldariin_measure_lines with that
 * current on line 1, and 0 on the others. Not once for each line, and not beside the call above: each
 * measure replaces all three currents, and can end an over-run on another line. Refused: 3, 2, 1, 7. */
struct chuldariin_reply chuldariin_measure(struct chuldariin_controller *c, uint64_t time, uint32_t current);

/* The current that was agreed with the van over the digital link, 0 to 80,000 mA, for a digital post. It
 * closes with a grant of 6,000 or more. Closed with less it tells wave 1000, and opens once that has
 * lasted 3 s; give the grant back before, and it charges on. With A settled every call, this one too, sets
 * the grant to 0 and is accepted: tell the grant after a reply has told B (or C or D). Nothing else takes
 * it away but begin, not a fault, an opening or a clear. So call this with 0 when the link is lost, and
 * whenever the van may have changed without A being told, as under a fault: before the clear.
 * Refused: 3, 2, 1, 12, 11. */
struct chuldariin_reply chuldariin_link(struct chuldariin_controller *c, uint64_t time, uint32_t granted);

/* A fault from outside: CHULDARIIN_FAULT_RESIDUAL, _WELDED or _TEMPERATURE. Tell it at once, and two in the
 * order in which they came: it comes behind those that are latched, and before a fault 2 that is latched in
 * this call. Told again, it keeps its place. Refused: 3, 2, 1, 8. */
struct chuldariin_reply chuldariin_fault(struct chuldariin_controller *c, uint64_t time, uint32_t kind);

/* Drops every latched fault, and their order with them: note the first before this call. Nothing else drops
 * a fault but begin: an unplugged van does not. A clear with an over-run 5 s old latches fault 2 itself, and
 * shows it. Refused: 3, 2, 1. */
struct chuldariin_reply chuldariin_clear(struct chuldariin_controller *c, uint64_t time);

/* Nothing but the time. If this is refused, open the contactor. Refused: 3, 2, 1. */
struct chuldariin_reply chuldariin_tick(struct chuldariin_controller *c, uint64_t time);

/* ---- Without a controller. ---- */

/* What a van reads from a duty in tenths of a percent, by the rows of table A3.9. Refused: 9. */
struct chuldariin_reading_reply chuldariin_reading(uint32_t duty);

/* The greatest duty, 100 to 960, that announces no more than the available current. Refused: 10. */
struct chuldariin_duty_reply chuldariin_duty(uint32_t current);

#undef CHULDARIIN_ASSERT
#undef CHULDARIIN_ALIGNOF

#ifdef __cplusplus
}
#endif

#endif
