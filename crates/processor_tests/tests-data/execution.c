/*
 * Runs instructions on operands at the edges on the processor that it is started on, and prints the results as the Rust
 * constants of src/execution/processor_table.rt:
 *
 *     gcc -O1 -mno-red-zone -o execution execution.c
 *     ./execution > ../src/execution/processor_table.rt
 *
 * Where flags are printed, the instruction runs once with the six flags clear and once with all of them set. AF after TEST,
 * which the manual (SDM volume 2) leaves undefined and the processor clears, is printed as it was before.
 */
#include <stdint.h>
#include <stdio.h>

/* A number in hex with a blank behind it, in lines of at most 116 bytes. */
static int column;

static void put(uint32_t number)
{
    char text[12];
    int length = snprintf(text, sizeof text, "%x ", number);
    if (column + length > 116) {
        printf("\\\n");
        column = 0;
    }
    fputs(text, stdout);
    column += length;
}

enum { CF = 0x001, PF = 0x004, AF = 0x010, ZF = 0x040, SF = 0x080, OF = 0x800, ALL = 0x8d5 };

static const uint32_t edges[8] = {0, 1, 0x7f, 0x80, 0xff, 0x7fffffff, 0x80000000, 0xffffffff};
static const uint32_t places[6] = {CF, PF, AF, ZF, SF, OF};

#define WITH_FLAGS(text) "pushq %[f]\n popfq\n " text "\n pushfq\n popq %[f]"

static void head(const char *doc, const char *name)
{
    printf("/// %s\npub(super) const %s: &str = \"\\\n", doc, name);
    column = 0;
}

static void xadd(void)
{
    head("XADD of two registers: destination, source and flags after.", "XADD");
    for (int i = 0; i < 8; i++)
        for (int j = 0; j < 8; j++)
            for (int k = 0; k < 2; k++) {
                uint32_t to = edges[i], from = edges[j];
                uint64_t f = (k ? ALL : 0) | 0x202;
                __asm__ volatile(WITH_FLAGS("xaddl %[b], %[a]") : [a] "+r"(to), [b] "+r"(from), [f] "+r"(f) : : "cc", "memory");
                put(to), put(from), put((uint32_t)f & ALL);
            }
    printf("\";\n\n");
}

static void cmpxchg(void)
{
    head("CMPXCHG of EAX with a register, from a source of 12345678h: EAX, destination and flags after.", "CMPXCHG");
    for (int i = 0; i < 8; i++)
        for (int j = 0; j < 8; j++)
            for (int k = 0; k < 2; k++) {
                uint32_t eax = edges[i], to = edges[j], from = 0x12345678;
                uint64_t f = (k ? ALL : 0) | 0x202;
                __asm__ volatile(WITH_FLAGS("cmpxchgl %[b], %[a]") : "+a"(eax), [a] "+r"(to), [f] "+r"(f) : [b] "r"(from) : "cc", "memory");
                put(eax), put(to), put((uint32_t)f & ALL);
            }
    printf("\";\n\n");
}

static void test(void)
{
    head("TEST of two registers: flags after.", "TEST");
    for (int i = 0; i < 8; i++)
        for (int j = 0; j < 8; j++)
            for (int k = 0; k < 2; k++) {
                uint32_t before = k ? ALL : 0;
                uint64_t f = before | 0x202;
                __asm__ volatile(WITH_FLAGS("testl %[b], %[a]") : [f] "+r"(f) : [a] "r"(edges[i]), [b] "r"(edges[j]) : "cc", "memory");
                put(((uint32_t)f & (ALL - AF)) | (before & AF));
            }
    printf("\";\n\n");
}

static void extensions(void)
{
    head("Of a doubleword: NOT, MOVZX and MOVSX of its low byte, EDX after CDQ and EAX after CWDE.", "EXTENSIONS");
    for (int i = 0; i < 8; i++) {
        uint32_t inverse = edges[i], zero, sign, edx, eax = edges[i];
        __asm__("notl %0" : "+r"(inverse));
        __asm__("movzbl %b1, %0" : "=r"(zero) : "q"(edges[i]));
        __asm__("movsbl %b1, %0" : "=r"(sign) : "q"(edges[i]));
        __asm__("cltd" : "=d"(edx) : "a"(edges[i]));
        __asm__("cwtl" : "+a"(eax));
        put(inverse), put(zero), put(sign), put(edx), put(eax);
    }
    printf("\";\n\n");
}

#define CONDITION(n, name)                                                                                   \
    {                                                                                                        \
        uint8_t set;                                                                                         \
        uint32_t moved = 0, one = 1;                                                                         \
        __asm__ volatile("pushq %2\n popfq\n set" name " %0\n cmov" name " %3, %1"                           \
                         : "=&q"(set), "+&r"(moved) : "r"(f), "r"(one) : "cc", "memory");                    \
        if (set != moved)                                                                                    \
            return 1;                                                                                        \
        mask |= (uint32_t)set << n;                                                                          \
    }

static int conditions(void)
{
    head("By the six flags, CF counting 1, PF 2, AF 4, ZF 8, SF 16 and OF 32: bit n says that SETcc sets its byte, and that\n"
         "/// CMOVcc moves, for the condition of number n.", "CONDITIONS");
    for (int i = 0; i < 64; i++) {
        uint32_t mask = 0;
        uint64_t f = 0x202;
        for (int j = 0; j < 6; j++)
            if (i >> j & 1)
                f |= places[j];
        CONDITION(0, "o") CONDITION(1, "no") CONDITION(2, "b") CONDITION(3, "ae")
        CONDITION(4, "e") CONDITION(5, "ne") CONDITION(6, "be") CONDITION(7, "a")
        CONDITION(8, "s") CONDITION(9, "ns") CONDITION(10, "p") CONDITION(11, "np")
        CONDITION(12, "l") CONDITION(13, "ge") CONDITION(14, "le") CONDITION(15, "g")
        put(mask);
    }
    printf("\";\n\n");
    return 0;
}

static void loops(void)
{
    head("By ECX: ECX after LOOP, whether LOOP jumps, and whether JECXZ does.", "LOOPS");
    for (int i = 0; i < 8; i++) {
        uint64_t ecx = edges[i], same = edges[i];
        uint32_t loops = 1, jumps = 1;
        __asm__ volatile("addr32 loop 1f\n movl $0, %1\n 1:" : "+c"(ecx), "+r"(loops));
        __asm__ volatile("jecxz 1f\n movl $0, %0\n 1:" : "+r"(jumps) : "c"(same));
        put((uint32_t)ecx), put(loops), put(jumps);
    }
    printf("\";\n\n");
}

int main(void)
{
    printf("//! Results of instructions as an Intel processor gives them: made by tests-data/execution.c, row by row in the\n"
           "//! order of its loops.\n//!\n//! The numbers are in hex, each with a blank behind it.\n\n");
    xadd();
    cmpxchg();
    test();
    extensions();
    loops();
    return conditions();
}
