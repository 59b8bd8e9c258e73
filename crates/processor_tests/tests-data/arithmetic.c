/*
 * Runs instructions on operands at the edges on the processor that it is started on, and prints the results as the Rust
 * constants of src/arithmetic/sums_table.rt, shifts_table.rt and products_table.rt:
 *
 *     gcc -O1 -mno-red-zone -o arithmetic arithmetic.c
 *     ./arithmetic sums > ../src/arithmetic/sums_table.rt
 *     ./arithmetic shifts > ../src/arithmetic/shifts_table.rt
 *     ./arithmetic products > ../src/arithmetic/products_table.rt
 *
 * Each instruction runs twice on each operand: with the six flags clear, and with all of them set. A flag that the manual
 * (SDM volume 2) leaves undefined after an instruction is printed as it was before, which is what this machine does with
 * it: `defined` below has the flags that the manual defines or keeps. The processor has them otherwise: AND, OR, XOR and
 * shifts clear AF, MUL and IMUL write AF, ZF, SF and PF, and shifts, and rotations by CL, by more than 1 write OF.
 */
#include <setjmp.h>
#include <signal.h>
#include <stdint.h>
#include <stdio.h>
#include <string.h>

/* A number in hex with a blank behind it, in lines of at most 116 bytes. */
static int column;

static void put(uint32_t number)
{
    char text[12];
    int length = snprintf(text, sizeof text, "%x ", number);
    if (column + length > 116) {
        printf("\\\n");
        column = 0;
    }
    fputs(text, stdout);
    column += length;
}

enum { CF = 0x001, PF = 0x004, AF = 0x010, ZF = 0x040, SF = 0x080, OF = 0x800, ALL = 0x8d5 };

static const uint32_t wide_edges[8] = {0, 1, 0x7f, 0x80, 0xff, 0x7fffffff, 0x80000000, 0xffffffff};
static const uint32_t byte_edges[5] = {0, 1, 0x7f, 0x80, 0xff};
static const uint32_t counts[5] = {0, 1, 31, 32, 33};
static const uint32_t flags_before[2] = {0, ALL};

/* What an instruction leaves: up to two numbers, the flags, and whether it raised #DE. */
struct after {
    uint32_t value, high, flags;
    int fault;
};

typedef struct after (*insn)(uint32_t a, uint32_t b, uint32_t before);

#define TWO_OPERANDS(name, text, type)                                                     \
    static struct after name(uint32_t a, uint32_t b, uint32_t before)                      \
    {                                                                                      \
        type value = (type)a;                                                              \
        uint64_t flags = before | 0x202;                                                   \
        __asm__ volatile("pushq %1\n popfq\n " text " %2, %0\n pushfq\n popq %1"           \
                         : "+q"(value), "+r"(flags) : "q"((type)b) : "cc", "memory");      \
        return (struct after){value, 0, flags & ALL, 0};                                   \
    }

#define ONE_OPERAND(name, text, type)                                                      \
    static struct after name(uint32_t a, uint32_t b, uint32_t before)                      \
    {                                                                                      \
        type value = (type)a;                                                              \
        uint64_t flags = before | 0x202;                                                   \
        (void)b;                                                                           \
        __asm__ volatile("pushq %1\n popfq\n " text " %0\n pushfq\n popq %1"               \
                         : "+q"(value), "+r"(flags) : : "cc", "memory");                   \
        return (struct after){value, 0, flags & ALL, 0};                                   \
    }

#define SHIFT(name, text)                                                                  \
    static struct after name(uint32_t a, uint32_t b, uint32_t before)                      \
    {                                                                                      \
        uint32_t value = a;                                                                \
        uint64_t flags = before | 0x202;                                                   \
        __asm__ volatile("pushq %1\n popfq\n " text " %%cl, %0\n pushfq\n popq %1"         \
                         : "+r"(value), "+r"(flags) : "c"(b) : "cc", "memory");            \
        return (struct after){value, 0, flags & ALL, 0};                                   \
    }

#define PRODUCT(name, text)                                                                \
    static struct after name(uint32_t a, uint32_t b, uint32_t before)                      \
    {                                                                                      \
        uint32_t low = a, high = 0;                                                        \
        uint64_t flags = before | 0x202;                                                   \
        __asm__ volatile("pushq %2\n popfq\n " text " %3\n pushfq\n popq %2"               \
                         : "+a"(low), "+d"(high), "+r"(flags) : "r"(b) : "cc", "memory");  \
        return (struct after){low, high, flags & ALL, 0};                                  \
    }

TWO_OPERANDS(add_d, "addl", uint32_t)
TWO_OPERANDS(or_d, "orl", uint32_t)
TWO_OPERANDS(adc_d, "adcl", uint32_t)
TWO_OPERANDS(sbb_d, "sbbl", uint32_t)
TWO_OPERANDS(and_d, "andl", uint32_t)
TWO_OPERANDS(sub_d, "subl", uint32_t)
TWO_OPERANDS(xor_d, "xorl", uint32_t)
TWO_OPERANDS(add_b, "addb", uint8_t)
TWO_OPERANDS(or_b, "orb", uint8_t)
TWO_OPERANDS(adc_b, "adcb", uint8_t)
TWO_OPERANDS(sbb_b, "sbbb", uint8_t)
TWO_OPERANDS(and_b, "andb", uint8_t)
TWO_OPERANDS(sub_b, "subb", uint8_t)
TWO_OPERANDS(xor_b, "xorb", uint8_t)
TWO_OPERANDS(cmp_d, "cmpl", uint32_t)
TWO_OPERANDS(cmp_b, "cmpb", uint8_t)
TWO_OPERANDS(bt_d, "btl", uint32_t)
TWO_OPERANDS(bts_d, "btsl", uint32_t)
TWO_OPERANDS(btr_d, "btrl", uint32_t)
TWO_OPERANDS(btc_d, "btcl", uint32_t)
TWO_OPERANDS(imul_low, "imull", uint32_t)
ONE_OPERAND(inc_d, "incl", uint32_t)
ONE_OPERAND(dec_d, "decl", uint32_t)
ONE_OPERAND(neg_d, "negl", uint32_t)
ONE_OPERAND(inc_b, "incb", uint8_t)
ONE_OPERAND(dec_b, "decb", uint8_t)
SHIFT(rol_d, "roll")
SHIFT(ror_d, "rorl")
SHIFT(shl_d, "shll")
SHIFT(shr_d, "shrl")
SHIFT(sar_d, "sarl")
PRODUCT(mul_d, "mull")
PRODUCT(imul_d, "imull")

static sigjmp_buf fault_exit;

static void on_fault(int number)
{
    (void)number;
    siglongjmp(fault_exit, 1);
}

#define QUOTIENT(name, text)                                                               \
    static struct after name(uint32_t high, uint32_t low, uint32_t by)                     \
    {                                                                                      \
        if (sigsetjmp(fault_exit, 1))                                                      \
            return (struct after){0, 0, 0, 1};                                             \
        __asm__ volatile(text " %2" : "+a"(low), "+d"(high) : "r"(by) : "cc");             \
        return (struct after){low, high, 0, 0};                                            \
    }

QUOTIENT(div_d, "divl")
QUOTIENT(idiv_d, "idivl")

static void head(const char *doc, const char *name)
{
    printf("/// %s\npub(super) const %s: &str = \"\\\n", doc, name);
    column = 0;
}

/* Flags after, where those that the manual leaves undefined are as before. */
static uint32_t kept(uint32_t after, uint32_t before, uint32_t defined)
{
    return (after & defined) | (before & ~defined);
}

static void pairs(const char *doc, const char *name, insn run, const uint32_t *edges, int n, uint32_t defined)
{
    head(doc, name);
    for (int i = 0; i < n; i++)
        for (int j = 0; j < n; j++)
            for (int k = 0; k < 2; k++) {
                struct after r = run(edges[i], edges[j], flags_before[k]);
                put(r.value), put(kept(r.flags, flags_before[k], defined));
            }
    printf("\";\n\n");
}

static void singles(const char *doc, const char *name, insn run, const uint32_t *edges, int n)
{
    head(doc, name);
    for (int i = 0; i < n; i++)
        for (int k = 0; k < 2; k++) {
            struct after r = run(edges[i], 0, flags_before[k]);
            put(r.value), put(r.flags);
        }
    printf("\";\n\n");
}

/* By the counts, and the flags that are defined where the count modulo 32 is 1 and where it is above. */
static void shifts(const char *doc, const char *name, insn run, uint32_t by_one, uint32_t by_more)
{
    head(doc, name);
    for (int i = 0; i < 8; i++)
        for (int j = 0; j < 5; j++)
            for (int k = 0; k < 2; k++) {
                struct after r = run(wide_edges[i], counts[j], flags_before[k]);
                uint32_t by = counts[j] % 32, defined = by == 0 ? ALL : by == 1 ? by_one : by_more;
                put(r.value), put(kept(r.flags, flags_before[k], defined));
            }
    printf("\";\n\n");
}

static void bits(const char *doc, const char *name, insn run)
{
    head(doc, name);
    for (int i = 0; i < 8; i++)
        for (int j = 0; j < 5; j++)
            for (int k = 0; k < 2; k++) {
                struct after r = run(wide_edges[i], counts[j], flags_before[k]);
                put(r.value), put(kept(r.flags, flags_before[k], CF | ZF));
            }
    printf("\";\n\n");
}

static void products(const char *doc, const char *name, insn run)
{
    head(doc, name);
    for (int i = 0; i < 8; i++)
        for (int j = 0; j < 8; j++)
            for (int k = 0; k < 2; k++) {
                struct after r = run(wide_edges[i], wide_edges[j], flags_before[k]);
                put(r.value), put(r.high), put(kept(r.flags, flags_before[k], CF | OF));
            }
    printf("\";\n\n");
}

static void quotients(const char *doc, const char *name, insn run)
{
    static const uint32_t highs[4] = {0, 1, 0x7fffffff, 0xffffffff};
    head(doc, name);
    for (int h = 0; h < 4; h++)
        for (int i = 0; i < 8; i++)
            for (int j = 0; j < 8; j++) {
                struct after r = run(highs[h], wide_edges[i], wide_edges[j]);
                put(r.fault), put(r.value), put(r.high);
            }
    printf("\";\n\n");
}

static void about(const char *what)
{
    printf("//! %s,\n//! as an Intel processor gives them: made by tests-data/arithmetic.c, row by row in the order of its loops. A flag\n"
           "//! that the manual leaves undefined stands here as it was before the instruction.\n//!\n//! The numbers are in hex, each with a blank behind it.\n\n", what);
}

static void sums(void)
{
    static const struct { const char *name; insn wide, narrow; uint32_t defined; } ops[8] = {
        {"ADD", add_d, add_b, ALL}, {"OR", or_d, or_b, ALL - AF}, {"ADC", adc_d, adc_b, ALL}, {"SBB", sbb_d, sbb_b, ALL},
        {"AND", and_d, and_b, ALL - AF}, {"SUB", sub_d, sub_b, ALL}, {"XOR", xor_d, xor_b, ALL - AF}, {"CMP", cmp_d, cmp_b, ALL},
    };
    char doc[80], name[20];
    about("Results and flags of ADD, OR, ADC, SBB, AND, SUB, XOR, CMP, INC, DEC and NEG");
    for (int i = 0; i < 8; i++) {
        snprintf(doc, sizeof doc, "%s of doublewords%s.", ops[i].name, i == 7 ? ": the destination stays" : "");
        snprintf(name, sizeof name, "%s_D", ops[i].name);
        pairs(doc, name, ops[i].wide, wide_edges, 8, ops[i].defined);
        snprintf(doc, sizeof doc, "%s of bytes%s.", ops[i].name, i == 7 ? ": the destination stays" : "");
        snprintf(name, sizeof name, "%s_B", ops[i].name);
        pairs(doc, name, ops[i].narrow, byte_edges, 5, ops[i].defined);
    }
    singles("INC of a doubleword.", "INC_D", inc_d, wide_edges, 8);
    singles("INC of a byte.", "INC_B", inc_b, byte_edges, 5);
    singles("DEC of a doubleword.", "DEC_D", dec_d, wide_edges, 8);
    singles("DEC of a byte.", "DEC_B", dec_b, byte_edges, 5);
    singles("NEG of a doubleword.", "NEG_D", neg_d, wide_edges, 8);
}

int main(int count, char **words)
{
    signal(SIGFPE, on_fault);
    if (count != 2)
        return 2;
    if (!strcmp(words[1], "sums")) {
        sums();
    } else if (!strcmp(words[1], "shifts")) {
        about("Results and flags of ROL, ROR, SHL, SHR, SAR, BT, BTS, BTR and BTC");
        shifts("ROL.", "ROL", rol_d, ALL, ALL - OF);
        shifts("ROR.", "ROR", ror_d, ALL, ALL - OF);
        shifts("SHL.", "SHL", shl_d, ALL - AF, ALL - AF - OF);
        shifts("SHR.", "SHR", shr_d, ALL - AF, ALL - AF - OF);
        shifts("SAR.", "SAR", sar_d, ALL - AF, ALL - AF - OF);
        bits("BT.", "BT", bt_d);
        bits("BTS.", "BTS", bts_d);
        bits("BTR.", "BTR", btr_d);
        bits("BTC.", "BTC", btc_d);
    } else {
        about("Results and flags of MUL, IMUL, DIV and IDIV");
        products("MUL.", "MUL", mul_d);
        products("IMUL with one operand.", "IMUL", imul_d);
        pairs("IMUL with two operands.", "IMUL_LOW", imul_low, wide_edges, 8, CF | OF);
        quotients("DIV: whether there is #DE, quotient and remainder.", "DIV", div_d);
        quotients("IDIV: whether there is #DE, quotient and remainder.", "IDIV", idiv_d);
    }
    return 0;
}
