/* Executes each instruction of RV32IM that computes, loads, stores or jumps on random operands, and leaves what it gave in
   `results`. With HOSTED these are written to standard output, by a call of Linux; else the program ends at an ebreak. */
#include <stdint.h>

#ifndef SEED
#define SEED 1
#endif

enum { PAIRS = 128, KINDS = 48 };

uint32_t results[KINDS * PAIRS];
static uint32_t place;
static uint8_t bytes[16];

static uint32_t draw(void)
{
    static uint32_t state = 2463534242u + SEED * 2654435761u;
    state ^= state << 13;
    state ^= state >> 17;
    state ^= state << 5;
    return state;
}

/* A random number, of which many lie at the edges. */
static uint32_t operand(void)
{
    static const uint32_t edges[8] = {0, 1, 2, 0x7fffffff, 0x80000000, 0x80000001, 0xfffffffe, 0xffffffff};
    uint32_t word = draw();
    return (word & 0x300) == 0 ? edges[word & 7] : draw() >> (word & 28);
}

static void put(uint32_t word) { results[place++] = word; }

#define TWO(name)                                                                 \
    for (int n = 0; n < PAIRS; n++) {                                             \
        uint32_t a = operand(), b = operand(), r;                                 \
        __asm__ volatile(name " %0, %1, %2" : "=r"(r) : "r"(a), "r"(b));          \
        put(r);                                                                   \
    }

#define ONE(name, number)                                                         \
    for (int n = 0; n < PAIRS / 4; n++) {                                         \
        uint32_t a = operand(), r;                                                \
        __asm__ volatile(name " %0, %1, " number : "=r"(r) : "r"(a));             \
        put(r);                                                                   \
    }

#define FOUR(name, p, q, r, s) ONE(name, p) ONE(name, q) ONE(name, r) ONE(name, s)
#define SIGNED(name) FOUR(name, "-2048", "-1", "1", "2047")
#define SHIFT(name) FOUR(name, "0", "1", "17", "31")

#define BRANCH(name)                                                              \
    for (int n = 0; n < PAIRS; n++) {                                             \
        uint32_t a = operand(), b = n & 1 ? a : operand(), r;                     \
        __asm__ volatile("li %0, 1\n" name " %1, %2, 1f\nli %0, 0\n1:"            \
                         : "=&r"(r) : "r"(a), "r"(b));                            \
        put(r);                                                                   \
    }

#define LOAD(name)                                                                \
    for (int n = 0; n < PAIRS; n++) {                                             \
        uint32_t r;                                                               \
        bytes[n & 15] = (uint8_t)draw();                                          \
        __asm__ volatile(name " %0, 3(%1)" : "=r"(r) : "r"(&bytes[n & 7]) : "memory"); \
        put(r);                                                                   \
    }

#define STORE(name)                                                               \
    for (int n = 0; n < PAIRS; n++) {                                             \
        __asm__ volatile(name " %0, 3(%1)" : : "r"(operand()), "r"(&bytes[n & 7]) : "memory"); \
        uint32_t sum = 0;                                                         \
        for (int i = 0; i < 16; i++)                                              \
            sum = sum << 1 ^ sum >> 31 ^ bytes[i] ^ sum << 7;                     \
        put(sum);                                                                 \
    }

static void compute(void)
{
    TWO("add") TWO("sub") TWO("sll") TWO("slt") TWO("sltu") TWO("xor") TWO("srl") TWO("sra") TWO("or") TWO("and")
    TWO("mul") TWO("mulh") TWO("mulhsu") TWO("mulhu") TWO("div") TWO("divu") TWO("rem") TWO("remu")
    SIGNED("addi") SIGNED("slti") SIGNED("sltiu") SIGNED("xori") SIGNED("ori") SIGNED("andi")
    SHIFT("slli") SHIFT("srli") SHIFT("srai")
    BRANCH("beq") BRANCH("bne") BRANCH("blt") BRANCH("bge") BRANCH("bltu") BRANCH("bgeu")
    LOAD("lb") LOAD("lh") LOAD("lw") LOAD("lbu") LOAD("lhu")
    STORE("sb") STORE("sh") STORE("sw")
    uint32_t a, b;
    __asm__ volatile("lui %0, 0x80000\nfence" : "=r"(a));
    put(a);
    __asm__ volatile("auipc %0, 0xfffff\nauipc %1, 0" : "=&r"(a), "=r"(b));
    put(b - a);
    __asm__ volatile("auipc %1, 0\njal %0, 1f\n.word 0\n1: sub %0, %0, %1" : "=&r"(a), "=&r"(b));
    put(a);
    __asm__ volatile("auipc %1, 0\njalr %0, 13(%1)\n.word 0\nsub %0, %0, %1" : "=&r"(a), "=&r"(b));
    put(a);
}

#ifdef HOSTED
__asm__(".globl _start\n_start: jal main\nli a7, 93\necall");
#endif

int main(void)
{
    compute();
#ifdef HOSTED
    register uint32_t a0 __asm__("a0") = 1, a1 __asm__("a1") = (uint32_t)results, a2 __asm__("a2") = sizeof results, a7 __asm__("a7") = 64;
    __asm__ volatile("ecall" : "+r"(a0) : "r"(a1), "r"(a2), "r"(a7) : "memory");
    return 0;
#else
    __asm__ volatile("ebreak");
    return 0;
#endif
}
