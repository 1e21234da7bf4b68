// A plain interpreter of RV64I with M and the AMO instructions to compare with: a table of pages with rights, and a switch on the
// opcode and funct3.
// It runs the same loops as crates/time_loops and prints the same lines, with the microseconds.
#include <stdint.h>
#include <stdio.h>
#include <stdlib.h>
#include <string.h>
#include <time.h>
#include "loops.h"

enum { PAGES = 34 };
enum stop { ON, ECALL, BREAK, ILLEGAL, MISALIGNED, FAULT };
static const char *const stop_names[] = {"On", "Ecall", "Break", "Illegal", "Misaligned", "Fault"};

static unsigned char *pages[PAGES];
static unsigned char rights[PAGES];
static uint64_t pc, x[32];

// The bytes of an access inside one page that has the right, or none.
static unsigned char *bytes_at(uint64_t addr, uint64_t size, int right) {
    uint64_t page = addr >> 12;
    if (page >= PAGES || !(rights[page] & right) || (addr & 4095) + size > 4096) return 0;
    return pages[page] + (addr & 4095);
}

static int64_t sext(uint64_t v, int bits) { return (int64_t)(v << (64 - bits)) >> (64 - bits); }

static uint64_t imm_b(uint32_t w) {
    return sext((w >> 31) << 12 | (w >> 7 & 1) << 11 | (w >> 25 & 63) << 5 | (w >> 8 & 15) << 1, 13);
}

static uint64_t imm_j(uint32_t w) {
    return sext((w >> 31) << 20 | (w >> 12 & 255) << 12 | (w >> 20 & 1) << 11 | (w >> 21 & 1023) << 1, 21);
}

// A quotient or a remainder: 4 and 6 take signed numbers, 5 and 7 unsigned ones. The least number by -1 gives itself and leaves 0.
static uint64_t divided(uint32_t funct3, uint64_t a, uint64_t b) {
    if (b == 0) return funct3 < 6 ? ~0ull : a;
    if (funct3 & 1) return funct3 < 6 ? a / b : a % b;
    if (b == ~0ull) return funct3 < 6 ? -a : 0;
    return funct3 < 6 ? (int64_t)a / (int64_t)b : (int64_t)a % (int64_t)b;
}

static uint64_t product_or_quotient(uint32_t funct3, uint64_t a, uint64_t b) {
    switch (funct3) {
    case 0: return a * b;
    case 1: return (__int128)(int64_t)a * (int64_t)b >> 64;
    case 2: return (__int128)(int64_t)a * (__int128)b >> 64;
    case 3: return (unsigned __int128)a * b >> 64;
    default: return divided(funct3, a, b);
    }
}

// What an atomic operation stores, of the old value and the register's.
static uint64_t combined(uint32_t top, uint64_t a, uint64_t b) {
    switch (top) {
    case 0x00: return a + b;
    case 0x01: return b;
    case 0x04: return a ^ b;
    case 0x08: return a | b;
    case 0x0c: return a & b;
    case 0x10: return (int64_t)b < (int64_t)a ? b : a;
    case 0x14: return (int64_t)a < (int64_t)b ? b : a;
    case 0x18: return b < a ? b : a;
    default: return a < b ? b : a;
    }
}

static enum stop step(void) {
    if (pc & 3) return MISALIGNED;
    unsigned char *at = bytes_at(pc, 4, 4);
    if (!at) return FAULT;
    uint32_t w;
    memcpy(&w, at, 4);
    uint32_t funct3 = w >> 12 & 7, rd = w >> 7 & 31;
    uint64_t a = x[w >> 15 & 31], b = x[w >> 20 & 31], v = 0, imm = (int64_t)(int32_t)w >> 20, next = pc + 4;
    switch (w & 127) {
    case 0x37: v = sext(w & 0xfffff000u, 32); break;
    case 0x17: v = pc + sext(w & 0xfffff000u, 32); break;
    case 0x6f:
        v = next;
        next = pc + imm_j(w);
        if (next & 3) return MISALIGNED;
        break;
    case 0x67:
        if (funct3) return ILLEGAL;
        v = next;
        next = (a + imm) & ~1ull;
        if (next & 3) return MISALIGNED;
        break;
    case 0x63: {
        int taken;
        switch (funct3) {
        case 0: taken = a == b; break;
        case 1: taken = a != b; break;
        case 4: taken = (int64_t)a < (int64_t)b; break;
        case 5: taken = (int64_t)a >= (int64_t)b; break;
        case 6: taken = a < b; break;
        case 7: taken = a >= b; break;
        default: return ILLEGAL;
        }
        if (taken) {
            next = pc + imm_b(w);
            if (next & 3) return MISALIGNED;
        }
        pc = next;
        return ON;
    }
    case 0x03: {
        static const unsigned sizes[8] = {1, 2, 4, 8, 1, 2, 4, 0};
        if (funct3 == 7) return ILLEGAL;
        at = bytes_at(a + imm, sizes[funct3], 1);
        if (!at) return FAULT;
        switch (funct3) {
        case 0: v = (int64_t)(int8_t)*at; break;
        case 1: { int16_t t; memcpy(&t, at, 2); v = (int64_t)t; break; }
        case 2: { int32_t t; memcpy(&t, at, 4); v = (int64_t)t; break; }
        case 3: memcpy(&v, at, 8); break;
        case 4: v = *at; break;
        case 5: { uint16_t t; memcpy(&t, at, 2); v = t; break; }
        case 6: { uint32_t t; memcpy(&t, at, 4); v = t; break; }
        }
        break;
    }
    case 0x23:
        if (funct3 > 3) return ILLEGAL;
        at = bytes_at(a + sext((w >> 25) << 5 | (w >> 7 & 31), 12), 1u << funct3, 2);
        if (!at) return FAULT;
        switch (funct3) {
        case 0: *at = b; break;
        case 1: memcpy(at, &b, 2); break;
        case 2: memcpy(at, &b, 4); break;
        case 3: memcpy(at, &b, 8); break;
        }
        pc = next;
        return ON;
    case 0x13:
        switch (funct3) {
        case 0: v = a + imm; break;
        case 1: if (w >> 26) return ILLEGAL; v = a << (w >> 20 & 63); break;
        case 2: v = (int64_t)a < (int64_t)imm; break;
        case 3: v = a < imm; break;
        case 4: v = a ^ imm; break;
        case 5:
            if (w >> 26 == 0) v = a >> (w >> 20 & 63);
            else if (w >> 26 == 0x10) v = (int64_t)a >> (w >> 20 & 63);
            else return ILLEGAL;
            break;
        case 6: v = a | imm; break;
        case 7: v = a & imm; break;
        }
        break;
    case 0x1b:
        switch (funct3) {
        case 0: v = sext(a + imm, 32); break;
        case 1: if (w >> 25) return ILLEGAL; v = sext(a << (w >> 20 & 31), 32); break;
        case 5:
            if (w >> 25 == 0) v = sext((uint32_t)a >> (w >> 20 & 31), 32);
            else if (w >> 25 == 0x20) v = (int64_t)((int32_t)a >> (w >> 20 & 31));
            else return ILLEGAL;
            break;
        default: return ILLEGAL;
        }
        break;
    case 0x33:
        switch (funct3 | (w >> 25) << 3) {
        case 0: v = a + b; break;
        case 0x100: v = a - b; break;
        case 1: v = a << (b & 63); break;
        case 2: v = (int64_t)a < (int64_t)b; break;
        case 3: v = a < b; break;
        case 4: v = a ^ b; break;
        case 5: v = a >> (b & 63); break;
        case 0x105: v = (int64_t)a >> (b & 63); break;
        case 6: v = a | b; break;
        case 7: v = a & b; break;
        case 8: case 9: case 10: case 11: case 12: case 13: case 14: case 15:
            v = product_or_quotient(funct3, a, b);
            break;
        default: return ILLEGAL;
        }
        break;
    case 0x3b:
        switch (funct3 | (w >> 25) << 3) {
        case 0: v = sext(a + b, 32); break;
        case 0x100: v = sext(a - b, 32); break;
        case 1: v = sext(a << (b & 31), 32); break;
        case 5: v = sext((uint32_t)a >> (b & 31), 32); break;
        case 0x105: v = (int64_t)((int32_t)a >> (b & 31)); break;
        case 8: v = sext(a * b, 32); break;
        case 12: case 14: v = sext(divided(funct3, sext(a, 32), sext(b, 32)), 32); break;
        case 13: case 15: v = sext(divided(funct3, (uint32_t)a, (uint32_t)b), 32); break;
        default: return ILLEGAL;
        }
        break;
    case 0x2f: {
        uint64_t size = 1u << funct3;
        if (funct3 >> 1 != 1 || !(0x11111113u >> (w >> 27) & 1)) return ILLEGAL;
        if (a & (size - 1)) return MISALIGNED;
        at = bytes_at(a, size, 1);
        if (!at || !bytes_at(a, size, 2)) return FAULT;
        memcpy(&v, at, size);
        if (size == 4) {
            v = sext(v, 32);
            b = sext(b, 32);
        }
        b = combined(w >> 27, v, b);
        memcpy(at, &b, size);
        break;
    }
    case 0x0f:
        if (funct3) return ILLEGAL;
        pc = next;
        return ON;
    case 0x73: return w == 0x73 ? ECALL : w == 0x100073 ? BREAK : ILLEGAL;
    default: return ILLEGAL;
    }
    if (rd) x[rd] = v;
    pc = next;
    return ON;
}

static uint64_t microseconds(void) {
    struct timespec t;
    clock_gettime(CLOCK_MONOTONIC, &t);
    return t.tv_sec * 1000000ull + t.tv_nsec / 1000;
}

static void run(const char *name, const uint32_t *code, size_t size) {
    for (int page = 1; page < PAGES; page++) {
        if (!pages[page]) pages[page] = malloc(4096);
        memset(pages[page], 0, 4096);
        rights[page] = page == 1 ? 5 : 3;
    }
    memcpy(pages[1], code, size);
    memset(x, 0, sizeof x);
    pc = 0x1000;
    uint64_t begun = microseconds(), instructions = 0;
    enum stop stop;
    while ((stop = step()) == ON) instructions++;
    uint64_t took = microseconds() - begun;
    printf("%s %llu %s %llx %llu\n", name, (unsigned long long)instructions, stop_names[stop], (unsigned long long)x[10], (unsigned long long)took);
}

int main(void) {
#define RUN(name) run(#name, name, sizeof name)
    LOOPS
    return 0;
}
