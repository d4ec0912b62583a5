/* What the machines in C of bench/hart and bench/stepping share: the instructions and how they are decoded, and memory. */
#include <stdint.h>
#include <stdio.h>
#include <stdlib.h>
#include <string.h>
#include "programs.h"

#define BASE 0x00010000u
#define SIZE 0x00100000u

enum op { ILLEGAL, LUI, AUIPC, JAL, JALR, BEQ, BNE, BLT, BGE, BLTU, BGEU, LB, LH, LW, LBU, LHU, SB, SH, SW, ADDI, SLTI,
    SLTIU, XORI, ORI, ANDI, SLLI, SRLI, SRAI, ADD, SUB, SLL, SLT, SLTU, XOR, SRL, SRA, OR, AND, FENCE, ECALL, EBREAK };

struct instr { uint8_t op, rd, rs1, rs2; uint32_t imm; };

struct hart { uint32_t pc, x[32]; };

#define PAGE 4096u

/* Memory: a table of pages, each made at the first write into it. NULL: not made, and each byte is 0. */
static uint8_t *pages[SIZE / PAGE];

__attribute__((noinline)) static struct instr decode(uint32_t w)
{
    static const uint8_t branch[8] = { BEQ, BNE, 0, 0, BLT, BGE, BLTU, BGEU };
    static const uint8_t load[8] = { LB, LH, LW, 0, LBU, LHU, 0, 0 };
    static const uint8_t store[8] = { SB, SH, SW, 0, 0, 0, 0, 0 };
    static const uint8_t immediate[8] = { ADDI, 0, SLTI, SLTIU, XORI, 0, ORI, ANDI };
    static const uint8_t plain[8] = { ADD, SLL, SLT, SLTU, XOR, SRL, OR, AND };
    uint32_t f3 = w >> 12 & 7, f7 = w >> 25;
    struct instr i = { ILLEGAL, w >> 7 & 31, w >> 15 & 31, w >> 20 & 31, 0 };
    uint32_t imm = (uint32_t)((int32_t)w >> 20);
    switch (w & 0x7f) {
    case 0x37: i.op = LUI; i.imm = w & 0xfffff000u; break;
    case 0x17: i.op = AUIPC; i.imm = w & 0xfffff000u; break;
    case 0x6f:
        i.op = JAL;
        i.imm = (uint32_t)((int32_t)(w & 0x80000000u) >> 11) | (w & 0xff000) | (w >> 9 & 0x800) | (w >> 20 & 0x7fe);
        break;
    case 0x67: i.op = f3 == 0 ? JALR : ILLEGAL; i.imm = imm; break;
    case 0x63:
        i.op = branch[f3];
        i.imm = (uint32_t)((int32_t)(w & 0x80000000u) >> 19) | (w << 4 & 0x800) | (w >> 20 & 0x7e0) | (w >> 7 & 0x1e);
        break;
    case 0x03: i.op = load[f3]; i.imm = imm; break;
    case 0x23: i.op = store[f3]; i.imm = (imm & ~31u) | (w >> 7 & 31); break;
    case 0x13:
        i.op = immediate[f3];
        i.imm = imm;
        if (f3 == 1 && f7 == 0) i.op = SLLI;
        if (f3 == 5 && f7 == 0) i.op = SRLI;
        if (f3 == 5 && f7 == 32) i.op = SRAI;
        break;
    case 0x33:
        if (f7 == 0) i.op = plain[f3];
        if (f7 == 32 && f3 == 0) i.op = SUB;
        if (f7 == 32 && f3 == 5) i.op = SRA;
        break;
    case 0x0f: i.op = f3 == 0 ? FENCE : ILLEGAL; break;
    case 0x73: i.op = w == 0x73 ? ECALL : w == 0x100073 ? EBREAK : ILLEGAL; break;
    }
    return i;
}

/* Whether so many bytes lie at an address that is a multiple of their number. */
static inline int lies(uint32_t address, uint32_t count)
{
    return address % count == 0 && (address - BASE) / PAGE < SIZE / PAGE;
}

/* Loads so many bytes; 0: that is a fault. */
static inline int load(uint32_t address, uint32_t count, void *into)
{
    const uint8_t *page;
    if (!lies(address, count)) return 0;
    page = pages[(address - BASE) / PAGE];
    if (page) memcpy(into, page + address % PAGE, count);
    else memset(into, 0, count);
    return 1;
}

__attribute__((noinline, cold)) static uint8_t *made(uint32_t page)
{
    pages[page] = calloc(1, PAGE);
    if (!pages[page]) exit(3);
    return pages[page];
}

/* Stores so many bytes; 0: that is a fault. */
static inline int store(uint32_t address, uint32_t count, const void *from)
{
    uint32_t k = (address - BASE) / PAGE;
    if (!lies(address, count)) return 0;
    memcpy((pages[k] ? pages[k] : made(k)) + address % PAGE, from, count);
    return 1;
}

/* Puts the words of a program into memory, from its first address on. */
static void put(const uint32_t *words, size_t bytes)
{
    for (uint32_t i = 0; i < bytes / 4; i++) store(BASE + 4 * i, 4, &words[i]);
}
