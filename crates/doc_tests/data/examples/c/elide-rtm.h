/*
 * _xbegin, _xend, _xabort and _xtest, with the bits of their statuses, as <immintrin.h> has them: for sources that have these for
 * x86-64 alone, and for compilers that do not know -mrtm. They are made of the instructions' bytes, and ask for no flag.
 *
 * Each file of a program may include it, in front of <immintrin.h> or behind: behind it, it has nothing to add.
 */
#ifndef ELIDE_RTM_H
#define ELIDE_RTM_H

/* What gcc's and clang's own header of RTM begins with: where it was read, its functions are there. */
#if !defined(_RTMINTRIN_H_INCLUDED) && !defined(__RTMINTRIN_H)
#define _RTMINTRIN_H_INCLUDED
#define _XTESTINTRIN_H_INCLUDED
#define __RTMINTRIN_H
#define __XTESTINTRIN_H

#define _XBEGIN_STARTED (~0u)
#define _XABORT_EXPLICIT (1 << 0)
#define _XABORT_RETRY (1 << 1)
#define _XABORT_CONFLICT (1 << 2)
#define _XABORT_CAPACITY (1 << 3)
#define _XABORT_DEBUG (1 << 4)
#define _XABORT_NESTED (1 << 5)
#define _XABORT_CODE(status) (((status) >> 24) & 0xff)

#define ELIDE_RTM static __inline__ __attribute__((__always_inline__, __unused__))

/* XBEGIN of the next instruction: it begins a transaction, or comes from its abort with the status. */
ELIDE_RTM unsigned _xbegin(void)
{
    unsigned status = _XBEGIN_STARTED;
    __asm__ volatile(".byte 0xc7, 0xf8\n\t.long 0" : "+a"(status) : : "memory");
    return status;
}

/* XEND. */
ELIDE_RTM void _xend(void)
{
    __asm__ volatile(".byte 0x0f, 0x01, 0xd5" : : : "memory");
}

/* XABORT of a constant. */
#define _xabort(code) __asm__ volatile(".byte 0xc6, 0xf8, %c0" : : "i"((code) & 0xff) : "memory")

/* XTEST: whether a transaction is open. */
ELIDE_RTM unsigned char _xtest(void)
{
    unsigned char is_open;
    __asm__ volatile(".byte 0x0f, 0x01, 0xd6\n\tsetnz %0" : "=r"(is_open) : : "cc", "memory");
    return is_open;
}

#endif

#endif
