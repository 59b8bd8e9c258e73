/*
 * A sorted list whose inserts and removals are transactions, with a lock to fall back on.
 *
 * Each core inserts eight numbers, so that those of all cores lie between each other, and removes every second one again.
 * At the end core 0 waits for the others, and returns the length of the list, or -1 where it is not sorted.
 */
#include "elide.h"

enum { ATTEMPTS = 4, NUMBERS = 8, MOST_CORES = 8 };

struct node {
    unsigned value;
    struct node *next;
} OWN_LINE;

static struct node nodes[MOST_CORES * NUMBERS];
OWN_LINE struct node *head;
OWN_LINE int lock;
OWN_LINE unsigned done;

/* Begins a transaction that reads the lock, or, after some attempts, takes it. */
static int begin(void)
{
    for (int attempt = 0; attempt < ATTEMPTS; attempt++) {
        if (_xbegin() == _XBEGIN_STARTED) {
            if (LOAD(lock) == 0)
                return 1;
            _xabort(0xff);
        }
        while (LOAD(lock) != 0)
            PAUSE();
    }
    while (EXCHANGE(lock, 1))
        PAUSE();
    return 0;
}

static void end(int is_transaction)
{
    if (is_transaction)
        _xend();
    else
        STORE(lock, 0);
}

/* The place of the first node whose value is not below this one. */
static struct node **place_of(unsigned value)
{
    struct node **place = &head;
    while (*place && (*place)->value < value)
        place = &(*place)->next;
    return place;
}

static void insert(struct node *node)
{
    int is_transaction = begin();
    struct node **place = place_of(node->value);
    node->next = *place;
    *place = node;
    end(is_transaction);
}

static void remove_value(unsigned value)
{
    int is_transaction = begin();
    struct node **place = place_of(value);
    if (*place && (*place)->value == value)
        *place = (*place)->next;
    end(is_transaction);
}

static int length(void)
{
    int nodes = 0;
    for (struct node *node = head; node; node = node->next) {
        if (node->next && node->next->value <= node->value)
            return -1;
        nodes++;
    }
    return nodes;
}

int core_main(unsigned core, unsigned cores)
{
    for (unsigned number = 0; number < NUMBERS; number++) {
        struct node *node = &nodes[core * NUMBERS + number];
        node->value = number * cores + core;
        insert(node);
    }
    for (unsigned number = 0; number < NUMBERS; number += 2)
        remove_value(number * cores + core);
    FETCH_ADD(done, 1);
    if (core != 0)
        return 0;
    while (LOAD(done) != cores)
        PAUSE();
    return length();
}
