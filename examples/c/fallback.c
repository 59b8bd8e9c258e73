/*
 * A test of a fallback path: each round takes one of the ways in which a transaction cannot succeed, and the work is done
 * once all the same, by the path behind the abort, whatever the status. Where XABORT set it, its code is checked.
 *
 * Returns how many rounds a core made. `work` is rounds times the number of cores, `aborts` counts by the way, and `told`
 * the statuses that name their way: all of them, unless a conflict or an abort from outside of the program comes between.
 */
#include "elide.h"

enum way { EXPLICIT, NOT_ALLOWED, TOO_DEEP, TOO_MANY_LINES, INTERRUPTED, WAYS };
enum { ROUNDS = 10, CODE = 0x5a, LINES = 513, LINE = 64 };

OWN_LINE int lock;
OWN_LINE unsigned work;
OWN_LINE unsigned aborts[WAYS];
OWN_LINE unsigned told;
OWN_LINE static char lines[LINES * LINE];

/* Runs into an abort. */
static void fail(enum way way)
{
    switch (way) {
    case EXPLICIT:
        _xabort(CODE);
        break;
    case NOT_ALLOWED:
        PAUSE();
        break;
    case TOO_DEEP:
        for (int depth = 1; depth <= 7; depth++)
            if (_xbegin() != _XBEGIN_STARTED)
                return;
        break;
    case TOO_MANY_LINES:
        for (int line = 0; line < LINES; line++)
            STORE(lines[line * LINE], 1);
        break;
    default:
        __asm__ volatile("int3");
    }
}

/* Whether a status names this way. */
static int names(enum way way, unsigned status)
{
    switch (way) {
    case EXPLICIT:
        return (status & _XABORT_EXPLICIT) && _XABORT_CODE(status) == CODE;
    case NOT_ALLOWED:
        return status == 0;
    case TOO_DEEP:
        return (status & _XABORT_NESTED) && !(status & _XABORT_EXPLICIT);
    case TOO_MANY_LINES:
        return (status & _XABORT_CAPACITY) != 0;
    default:
        return (status & _XABORT_DEBUG) != 0;
    }
}

/*
 * Whether a status can come this way. Bit 0 is XABORT's alone, with its code. A status without it may always come, with any
 * of the other bits or none: hardware may abort a transaction at any time, and promises no status (0 is seen of interrupts,
 * 8 of evictions). So what is done behind an abort must not hang on it.
 */
static int can_come(enum way way, unsigned status)
{
    return !(status & _XABORT_EXPLICIT) || (way == EXPLICIT && names(way, status));
}

/* Does the work once, in a transaction that fails, and so by the lock. */
static void round_of(enum way way)
{
    unsigned status = _xbegin();
    if (status == _XBEGIN_STARTED) {
        STORE(work, LOAD(work) + 1);
        fail(way);
        _xend();
        CHECK(0);
    }
    CHECK(can_come(way, status));
    while (EXCHANGE(lock, 1))
        PAUSE();
    work++;
    aborts[way]++;
    told += names(way, status);
    STORE(lock, 0);
}

int core_main(unsigned core, unsigned cores)
{
    (void)core;
    (void)cores;
    for (int number = 0; number < ROUNDS; number++)
        round_of((enum way)(number % WAYS));
    return ROUNDS;
}
