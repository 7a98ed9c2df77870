/* A plain interpreter of RV64IMC that checks nothing: no address, no right, no table of instructions that is proved.
 * It is what `uefihost flat` is measured against, and prints the same line: plain FILE BOUND. */
#include <stdint.h>
#include <stdio.h>
#include <stdlib.h>
#include <string.h>

#define BASE 0x40000000u

static uint8_t *memory;
static uint64_t x[32];

static uint8_t *at(uint64_t address) { return memory + (address - BASE); }

#define LOAD(type, address) ({ type value; memcpy(&value, at(address), sizeof value); value; })
#define STORE(type, address, number) ({ type value = (type)(number); memcpy(at(address), &value, sizeof value); })

static int64_t field(uint32_t word, int high, int low) { return (word >> low) & ((1u << (high - low + 1)) - 1); }
static int64_t sign(uint64_t number, int bits) { return (int64_t)(number << (64 - bits)) >> (64 - bits); }

static int64_t imm_i(uint32_t w) { return (int32_t)w >> 20; }
static int64_t imm_s(uint32_t w) { return sign(field(w, 31, 25) << 5 | field(w, 11, 7), 12); }
static int64_t imm_b(uint32_t w) {
    return sign(field(w, 31, 31) << 12 | field(w, 7, 7) << 11 | field(w, 30, 25) << 5 | field(w, 11, 8) << 1, 13);
}
static int64_t imm_j(uint32_t w) {
    return sign(field(w, 31, 31) << 20 | field(w, 19, 12) << 12 | field(w, 20, 20) << 11 | field(w, 30, 21) << 1, 21);
}

static int64_t divide(int64_t a, int64_t b) { return b == 0 ? -1 : a == INT64_MIN && b == -1 ? a : a / b; }
static int64_t rest(int64_t a, int64_t b) { return b == 0 ? a : a == INT64_MIN && b == -1 ? 0 : a % b; }
static int32_t divide_w(int32_t a, int32_t b) { return b == 0 ? -1 : a == INT32_MIN && b == -1 ? a : a / b; }
static int32_t rest_w(int32_t a, int32_t b) { return b == 0 ? a : a == INT32_MIN && b == -1 ? 0 : a % b; }

static uint64_t product(uint32_t kind, uint64_t a, uint64_t b) {
    switch (kind) {
    case 0: return a * b;
    case 1: return (uint64_t)(((__int128)(int64_t)a * (int64_t)b) >> 64);
    case 2: return (uint64_t)(((__int128)(int64_t)a * (unsigned __int128)b) >> 64);
    case 3: return (uint64_t)(((unsigned __int128)a * b) >> 64);
    case 4: return (uint64_t)divide((int64_t)a, (int64_t)b);
    case 5: return b == 0 ? UINT64_MAX : a / b;
    case 6: return (uint64_t)rest((int64_t)a, (int64_t)b);
    default: return b == 0 ? a : a % b;
    }
}

static uint64_t product_w(uint32_t kind, uint32_t a, uint32_t b) {
    switch (kind) {
    case 0: return (uint64_t)(int32_t)(a * b);
    case 4: return (uint64_t)divide_w((int32_t)a, (int32_t)b);
    case 5: return b == 0 ? UINT64_MAX : (uint64_t)(int32_t)(a / b);
    case 6: return (uint64_t)rest_w((int32_t)a, (int32_t)b);
    default: return b == 0 ? (uint64_t)(int32_t)a : (uint64_t)(int32_t)(a % b);
    }
}

static uint64_t work(uint32_t kind, int other, uint64_t a, uint64_t b) {
    switch (kind) {
    case 0: return other ? a - b : a + b;
    case 1: return a << (b & 63);
    case 2: return (int64_t)a < (int64_t)b;
    case 3: return a < b;
    case 4: return a ^ b;
    case 5: return other ? (uint64_t)((int64_t)a >> (b & 63)) : a >> (b & 63);
    case 6: return a | b;
    default: return a & b;
    }
}

static uint64_t work_w(uint32_t kind, int other, uint32_t a, uint32_t b) {
    switch (kind) {
    case 0: return (uint64_t)(int32_t)(other ? a - b : a + b);
    case 1: return (uint64_t)(int32_t)(a << (b & 31));
    default: return other ? (uint64_t)((int32_t)a >> (b & 31)) : (uint64_t)(int32_t)(a >> (b & 31));
    }
}

static int branches(uint32_t kind, uint64_t a, uint64_t b) {
    switch (kind) {
    case 0: return a == b;
    case 1: return a != b;
    case 4: return (int64_t)a < (int64_t)b;
    case 5: return (int64_t)a >= (int64_t)b;
    case 6: return a < b;
    default: return a >= b;
    }
}

static uint64_t loaded(uint32_t kind, uint64_t address) {
    switch (kind) {
    case 0: return (uint64_t)(int64_t)LOAD(int8_t, address);
    case 1: return (uint64_t)(int64_t)LOAD(int16_t, address);
    case 2: return (uint64_t)(int64_t)LOAD(int32_t, address);
    case 3: return LOAD(uint64_t, address);
    case 4: return LOAD(uint8_t, address);
    case 5: return LOAD(uint16_t, address);
    default: return LOAD(uint32_t, address);
    }
}

static void stored(uint32_t kind, uint64_t address, uint64_t number) {
    switch (kind) {
    case 0: STORE(uint8_t, address, number); break;
    case 1: STORE(uint16_t, address, number); break;
    case 2: STORE(uint32_t, address, number); break;
    default: STORE(uint64_t, address, number); break;
    }
}

/* The 32-bit instruction that a 16-bit one stands for, 0 for none; only those that the loops of the bench use. */
static uint32_t expanded(uint32_t h) {
    uint32_t rd = h >> 7 & 31, rs2 = h >> 2 & 31, low = 8 + (h >> 2 & 7), high = 8 + (h >> 7 & 7);
    int64_t imm6 = sign(field(h, 12, 12) << 5 | field(h, 6, 2), 6);
    switch ((h & 3) << 3 | h >> 13) {
    case 010: return (uint32_t)(imm6 & 0xfff) << 20 | rd << 15 | rd << 7 | 0x13;
    case 012: return (uint32_t)(imm6 & 0xfff) << 20 | rd << 7 | 0x13;
    case 014:
        if (field(h, 11, 10) == 2) return (uint32_t)(imm6 & 0xfff) << 20 | high << 15 | 7 << 12 | high << 7 | 0x13;
        if (field(h, 11, 10) < 2)
            return (uint32_t)(field(h, 11, 10) == 1 ? 0x400 : 0) << 20 | (uint32_t)(imm6 & 63) << 20 | high << 15 | 5 << 12 | high << 7 | 0x13;
        if (field(h, 12, 12) == 0) {
            static const uint32_t kinds[4] = {0x40000000, 4 << 12, 6 << 12, 7 << 12};
            return kinds[field(h, 6, 5)] | low << 20 | high << 15 | high << 7 | 0x33;
        }
        return 0;
    case 015: {
        int64_t to = sign(field(h, 12, 12) << 11 | field(h, 8, 8) << 10 | field(h, 10, 9) << 8 | field(h, 6, 6) << 7 |
                              field(h, 7, 7) << 6 | field(h, 2, 2) << 5 | field(h, 11, 11) << 4 | field(h, 5, 3) << 1,
                          12);
        uint32_t j = (uint32_t)to;
        return (j >> 20 & 1) << 31 | (j >> 1 & 0x3ff) << 21 | (j >> 11 & 1) << 20 | (j >> 12 & 0xff) << 12 | 0x6f;
    }
    case 016: case 017: {
        int64_t to = sign(field(h, 12, 12) << 8 | field(h, 6, 5) << 6 | field(h, 2, 2) << 5 | field(h, 11, 10) << 3 | field(h, 4, 3) << 1, 9);
        uint32_t b = (uint32_t)to, kind = (h >> 13 & 7) == 6 ? 0 : 1;
        return (b >> 12 & 1) << 31 | (b >> 5 & 63) << 25 | high << 15 | kind << 12 | (b >> 1 & 15) << 8 | (b >> 11 & 1) << 7 | 0x63;
    }
    case 020: return (uint32_t)(imm6 & 63) << 20 | rd << 15 | 1 << 12 | rd << 7 | 0x13;
    case 024:
        if (field(h, 12, 12) == 0) return rs2 == 0 ? rd << 15 | 0x67 : rs2 << 20 | rd << 7 | 0x33;
        if (rs2 == 0) return rd == 0 ? 0x00100073 : rd << 15 | 1 << 7 | 0x67;
        return rs2 << 20 | rd << 15 | rd << 7 | 0x33;
    default: return 0;
    }
}

/* Runs so many steps from an address on; gives the steps left at a trap, with its cause. */
static uint64_t run(uint64_t *place, uint64_t steps, const char **cause) {
    uint64_t pc = *place;
    while (steps > 0) {
        uint32_t w = LOAD(uint32_t, pc);
        uint64_t length = 4;
        if ((w & 3) != 3) {
            length = 2;
            w = expanded(w & 0xffff);
        }
        uint32_t rd = w >> 7 & 31, kind = w >> 12 & 7;
        uint64_t a = x[w >> 15 & 31], b = x[w >> 20 & 31], next = pc + length, value;
        switch (w & 0x7f) {
        case 0x13: value = work(kind, kind == 5 && w >> 30 & 1, a, (uint64_t)imm_i(w)); break;
        case 0x33: value = (w >> 25) == 1 ? product(kind, a, b) : work(kind, w >> 30 & 1, a, b); break;
        case 0x1b: value = work_w(kind, kind == 5 && w >> 30 & 1, (uint32_t)a, (uint32_t)imm_i(w)); break;
        case 0x3b: value = (w >> 25) == 1 ? product_w(kind, (uint32_t)a, (uint32_t)b) : work_w(kind, w >> 30 & 1, (uint32_t)a, (uint32_t)b); break;
        case 0x03: value = loaded(kind, a + (uint64_t)imm_i(w)); break;
        case 0x23: stored(kind, a + (uint64_t)imm_s(w), b); rd = 0; value = 0; break;
        case 0x63: if (branches(kind, a, b)) next = pc + (uint64_t)imm_b(w); rd = 0; value = 0; break;
        case 0x37: value = (uint64_t)(int64_t)(int32_t)(w & 0xfffff000); break;
        case 0x17: value = pc + (uint64_t)(int64_t)(int32_t)(w & 0xfffff000); break;
        case 0x6f: value = next; next = pc + (uint64_t)imm_j(w); break;
        case 0x67: value = next; next = (a + (uint64_t)imm_i(w)) & ~(uint64_t)1; break;
        case 0x0f: rd = 0; value = 0; break;
        default:
            *cause = w == 0x00100073 ? "ebreak" : w == 0x00000073 ? "ecall" : "illegal";
            *place = pc;
            return steps;
        }
        if (rd != 0) x[rd] = value;
        pc = next;
        steps -= 1;
    }
    *cause = "bound";
    *place = pc;
    return 0;
}

int main(int count, char **words) {
    if (count != 3) return 2;
    memory = calloc(4096, 4096);
    FILE *file = fopen(words[1], "rb");
    if (memory == NULL || file == NULL) return 4;
    if (fread(memory, 1, 4096 * 1024, file) == 0 && ferror(file)) return 4;
    fclose(file);
    uint64_t bound = strtoull(words[2], NULL, 10), place = BASE;
    const char *cause;
    uint64_t left = run(&place, bound, &cause);
    printf("flat %s %016llx %llu %016llx\n", cause, (unsigned long long)place, (unsigned long long)(bound - left), (unsigned long long)x[10]);
    return strcmp(cause, "ebreak") != 0;
}
