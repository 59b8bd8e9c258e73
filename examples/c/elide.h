/*
 * What a program in C begins with, so that `elide` runs it: the start of its cores, and transactions by <immintrin.h>.
 *
 * Each core begins at `_start` with its number in EAX, the number of cores in ECX, a stack of its own and all other
 * registers 0. It calls `core_main` with the two numbers, and stops (HLT) with what that returns in EAX.
 *
 * Include it in one file of the program; docs/C.md says how to compile and link.
 */
#ifndef ELIDE_H
#define ELIDE_H

#include <immintrin.h>

#ifdef __cplusplus
extern "C"
#endif
int core_main(unsigned core, unsigned cores);

__asm__(".pushsection .text.start, \"ax\", @progbits\n"
        ".globl _start\n"
        ".type _start, @function\n"
        "_start:\n"
        "\tpushl %ecx\n"
        "\tpushl %eax\n"
        "\tcall core_main\n"
        "\thlt\n"
        ".size _start, . - _start\n"
        ".popsection\n");

/* A variable on a line of 64 bytes of its own: whatever else is written, no transaction that read it is hit. */
#define OWN_LINE __attribute__((aligned(64)))

/* A load and a store that the compiler leaves where they stand. */
#define LOAD(place) (*(volatile __typeof__(place) *)&(place))
#define STORE(place, value) (*(volatile __typeof__(place) *)&(place) = (value))

/* Locked exchange and addition, and PAUSE, as XCHG, LOCK XADD and F3 90. */
#define EXCHANGE(place, value) __sync_lock_test_and_set(&(place), (value))
#define FETCH_ADD(place, value) __sync_fetch_and_add(&(place), (value))
#define PAUSE() __builtin_ia32_pause()

/* Ends a core with INT3 where a condition fails: `stop:#BP` in the state, and `--stop #BP` of `hunt` finds it. */
#define CHECK(condition)                 \
    do {                                 \
        if (!(condition))                \
            __asm__ volatile("int3");    \
    } while (0)

#endif
