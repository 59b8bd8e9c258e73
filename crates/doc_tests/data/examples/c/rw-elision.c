/*
 * A lock for many readers or one writer, whose read side is elided as Concurrency Kit elides its own (ck_elide over ck_rwlock), with
 * the defect which that has. The end of a read section asks the lock whether it was elided: where no reader is counted, this one was
 * not, and its transaction is ended. But another reader may be counted, who holds the lock plainly. Then the transaction counts that
 * reader down, and goes on behind the section, open: whatever comes next is inside of it, until something aborts it.
 *
 * Nothing wrong is stored, since all of it is undone, so no check of memory sees it, and an INT3 there would be undone as well.
 * What sees it is XTEST behind the section, and XABORT, which alone leads out and tells why: the reader stops at INT3 then.
 * With -DMENDED the end of a section asks XTEST whether this reader is in a transaction.
 *
 * Core 0 writes, the others read; each makes 4 sections. At the end `first` and `second` are 4.
 */
#include "elide.h"

enum { SECTIONS = 4, LOCK_IS_BUSY = 0xff, LEFT_OPEN = 0xee };

/* On one line, as in Concurrency Kit: each plain reader that comes or goes aborts those that elide. */
struct rw_lock {
    unsigned writer;
    unsigned readers;
};

static OWN_LINE struct rw_lock lock;
OWN_LINE unsigned first;
OWN_LINE unsigned second;

static void take_for_reading(struct rw_lock *lock)
{
    for (;;) {
        while (LOAD(lock->writer) != 0)
            PAUSE();
        FETCH_ADD(lock->readers, 1);
        if (LOAD(lock->writer) == 0)
            return;
        FETCH_ADD(lock->readers, -1);
    }
}

static void begin_reading(struct rw_lock *lock)
{
    unsigned status = _xbegin();
    if (status == _XBEGIN_STARTED) {
        if (LOAD(lock->writer) == 0)
            return;
        _xabort(LOCK_IS_BUSY);
    }
    CHECK(!(status & _XABORT_EXPLICIT) || _XABORT_CODE(status) != LEFT_OPEN);
    take_for_reading(lock);
}

static int was_elided(struct rw_lock *lock)
{
#ifdef MENDED
    (void)lock;
    return _xtest();
#else
    return LOAD(lock->readers) == 0;
#endif
}

static void end_reading(struct rw_lock *lock)
{
    if (was_elided(lock))
        _xend();
    else
        FETCH_ADD(lock->readers, -1);
}

static void begin_writing(struct rw_lock *lock)
{
    while (EXCHANGE(lock->writer, 1))
        PAUSE();
    while (LOAD(lock->readers) != 0)
        PAUSE();
}

static void end_writing(struct rw_lock *lock)
{
    STORE(lock->writer, 0);
}

/* Behind a section no transaction is open. */
static void expect_no_transaction(void)
{
    if (_xtest())
        _xabort(LEFT_OPEN);
}

static void write_section(void)
{
    begin_writing(&lock);
    STORE(first, first + 1);
    STORE(second, second + 1);
    end_writing(&lock);
}

static void read_section(void)
{
    begin_reading(&lock);
    CHECK(LOAD(first) == LOAD(second));
    end_reading(&lock);
    expect_no_transaction();
}

int core_main(unsigned core, unsigned cores)
{
    (void)cores;
    for (int number = 0; number < SECTIONS; number++) {
        if (core == 0)
            write_section();
        else
            read_section();
    }
    return SECTIONS;
}
