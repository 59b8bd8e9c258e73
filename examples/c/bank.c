/*
 * A bank: transfers between accounts are transactions, and so is the audit that adds all of them up.
 *
 * Core 0 audits 20 times, and stops at INT3 where a sum is another; the others make 40 transfers each. At the end
 * `transfers` is 40 times the number of the others, and the sum is what it was.
 */
#include "elide.h"

enum { ACCOUNTS = 16, BALANCE = 100, ATTEMPTS = 8, AUDITS = 20, TRANSFERS = 40 };

/* Four accounts a line. */
struct account {
    int balance;
    int unused[3];
};

#define FOUR {BALANCE, {0}}, {BALANCE, {0}}, {BALANCE, {0}}, {BALANCE, {0}}
OWN_LINE struct account accounts[ACCOUNTS] = {FOUR, FOUR, FOUR, FOUR};
OWN_LINE int lock;
OWN_LINE unsigned transfers;
OWN_LINE unsigned audits;

static int begin(void)
{
    for (int attempt = 0; attempt < ATTEMPTS; attempt++) {
        unsigned status = _xbegin();
        if (status == _XBEGIN_STARTED) {
            if (LOAD(lock) == 0)
                return 1;
            _xabort(0xff);
        }
        if (!(status & (_XABORT_RETRY | _XABORT_CONFLICT | _XABORT_EXPLICIT)))
            break;
        while (LOAD(lock) != 0)
            PAUSE();
    }
    while (EXCHANGE(lock, 1))
        PAUSE();
    return 0;
}

static void end(int is_transaction)
{
    if (is_transaction)
        _xend();
    else
        STORE(lock, 0);
}

static void transfer(unsigned from, unsigned to, int amount)
{
    int is_transaction = begin();
    if (accounts[from].balance >= amount) {
        accounts[from].balance -= amount;
        accounts[to].balance += amount;
    }
    end(is_transaction);
    FETCH_ADD(transfers, 1);
}

static int audit(void)
{
    int sum = 0;
    int is_transaction = begin();
    for (unsigned account = 0; account < ACCOUNTS; account++)
        sum += accounts[account].balance;
    end(is_transaction);
    audits++;
    return sum;
}

int core_main(unsigned core, unsigned cores)
{
    unsigned draw = core * 2654435761u;
    (void)cores;
    if (core == 0) {
        for (int number = 0; number < AUDITS; number++)
            CHECK(audit() == ACCOUNTS * BALANCE);
        return audit();
    }
    for (int number = 0; number < TRANSFERS; number++) {
        draw = draw * 1664525u + 1013904223u;
        transfer(draw >> 28, draw >> 20 & 15, (draw >> 12 & 63) + 1);
    }
    return TRANSFERS;
}
