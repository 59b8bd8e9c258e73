/*
 * A hash table behind one lock that is elided, with the retry policy of glibc's elision of pthread_mutex_lock
 * (sysdeps/unix/sysv/linux/x86/elision-lock.c): three attempts while the status says that another may succeed; where
 * the lock was busy or a transaction cannot succeed, the next three locks are taken plainly.
 *
 * Each core inserts 16 keys of its own, and counts them. At the end `count` is 16 times the number of cores.
 */
#include "elide.h"

enum {
    ATTEMPTS = 3,          /* retry_try_xbegin */
    SKIP_LOCK_BUSY = 3,    /* skip_lock_busy */
    SKIP_ABORT = 3,        /* skip_lock_internal_abort */
    LOCK_IS_BUSY = 0xff,   /* _ABORT_LOCK_BUSY */
    KEYS = 16,             /* of each core */
    BUCKETS = 64
};

struct elided_lock {
    int is_taken;
    int skip;              /* adapt_count: how many locks are still taken plainly */
};

static OWN_LINE struct elided_lock lock;
OWN_LINE unsigned count;
OWN_LINE unsigned keys[BUCKETS];
OWN_LINE unsigned plain_locks;   /* written by the holder of the lock alone */

static void take(struct elided_lock *lock)
{
    while (EXCHANGE(lock->is_taken, 1))
        PAUSE();
    plain_locks++;
}

static void lock_elided(struct elided_lock *lock)
{
    if (LOAD(lock->skip) > 0) {
        STORE(lock->skip, LOAD(lock->skip) - 1);
        take(lock);
        return;
    }
    for (int attempt = 0; attempt < ATTEMPTS; attempt++) {
        unsigned status = _xbegin();
        if (status == _XBEGIN_STARTED) {
            if (LOAD(lock->is_taken) == 0)
                return;
            _xabort(LOCK_IS_BUSY);
        }
        if (!(status & _XABORT_RETRY)) {
            int is_busy = (status & _XABORT_EXPLICIT) && _XABORT_CODE(status) == LOCK_IS_BUSY;
            STORE(lock->skip, is_busy ? SKIP_LOCK_BUSY : SKIP_ABORT);
            break;
        }
    }
    take(lock);
}

static void unlock_elided(struct elided_lock *lock)
{
    if (LOAD(lock->is_taken) == 0)
        _xend();
    else
        STORE(lock->is_taken, 0);
}

/* Puts a key into the first free bucket from its own on. */
static void insert(unsigned key)
{
    unsigned bucket = key * 2654435761u >> 26;
    while (keys[bucket] != 0)
        bucket = (bucket + 1) % BUCKETS;
    keys[bucket] = key;
    count++;
}

int core_main(unsigned core, unsigned cores)
{
    for (unsigned number = 0; number < KEYS; number++) {
        lock_elided(&lock);
        insert(1 + core + number * cores);
        unlock_elided(&lock);
    }
    return KEYS;
}
