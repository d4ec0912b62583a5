/* A plain interpreter of RV32I, beside which bench/hart/run times crates/bench: each step fetches, decodes to a record
   with a tag for the mnemonic, and executes that. Words: the program, its argument. */
#include "decode.h"

enum stepped { RETIRED, EXIT, STOP };

static enum stepped step(struct hart *h)
{
    uint32_t *x = h->x, pc = h->pc, next = pc + 4, v = 0, w, target;
    uint16_t halfword;
    uint8_t byte;
    if (!load(pc, 4, &w)) return STOP;
    struct instr i = decode(w);
    uint32_t a = x[i.rs1], b = x[i.rs2], sum = a + i.imm;
    int taken;
    switch (i.op) {
    case LUI: v = i.imm; break;
    case AUIPC: v = pc + i.imm; break;
    case JAL: target = pc + i.imm; goto jump;
    case JALR: target = sum & ~1u; goto jump;
    case BEQ: taken = a == b; goto branch;
    case BNE: taken = a != b; goto branch;
    case BLT: taken = (int32_t)a < (int32_t)b; goto branch;
    case BGE: taken = (int32_t)a >= (int32_t)b; goto branch;
    case BLTU: taken = a < b; goto branch;
    case BGEU: taken = a >= b; goto branch;
    case LB: if (!load(sum, 1, &byte)) return STOP; v = (uint32_t)(int8_t)byte; break;
    case LBU: if (!load(sum, 1, &byte)) return STOP; v = byte; break;
    case LH: if (!load(sum, 2, &halfword)) return STOP; v = (uint32_t)(int16_t)halfword; break;
    case LHU: if (!load(sum, 2, &halfword)) return STOP; v = halfword; break;
    case LW: if (!load(sum, 4, &v)) return STOP; break;
    case SB: byte = (uint8_t)b; if (!store(sum, 1, &byte)) return STOP; h->pc = next; return RETIRED;
    case SH: halfword = (uint16_t)b; if (!store(sum, 2, &halfword)) return STOP; h->pc = next; return RETIRED;
    case SW: if (!store(sum, 4, &b)) return STOP; h->pc = next; return RETIRED;
    case ADDI: v = sum; break;
    case SLTI: v = (int32_t)a < (int32_t)i.imm; break;
    case SLTIU: v = a < i.imm; break;
    case XORI: v = a ^ i.imm; break;
    case ORI: v = a | i.imm; break;
    case ANDI: v = a & i.imm; break;
    case SLLI: v = a << i.rs2; break;
    case SRLI: v = a >> i.rs2; break;
    case SRAI: v = (uint32_t)((int32_t)a >> i.rs2); break;
    case ADD: v = a + b; break;
    case SUB: v = a - b; break;
    case SLL: v = a << (b & 31); break;
    case SLT: v = (int32_t)a < (int32_t)b; break;
    case SLTU: v = a < b; break;
    case XOR: v = a ^ b; break;
    case SRL: v = a >> (b & 31); break;
    case SRA: v = (uint32_t)((int32_t)a >> (b & 31)); break;
    case OR: v = a | b; break;
    case AND: v = a & b; break;
    case FENCE: h->pc = next; return RETIRED;
    case ECALL: return x[17] == 93 ? EXIT : STOP;
    default: return STOP;
    }
    x[i.rd] = v;
    x[0] = 0;
    h->pc = next;
    return RETIRED;
jump:
    if (target % 4 != 0) return STOP;
    x[i.rd] = next;
    x[0] = 0;
    h->pc = target;
    return RETIRED;
branch:
    target = taken ? pc + i.imm : next;
    if (target % 4 != 0) return STOP;
    h->pc = target;
    return RETIRED;
}

int main(int count, char **words)
{
    struct hart h = { BASE, { 0 } };
    enum stepped stepped;
    uint64_t retired = 0;
    if (count != 3) return 2;
    if (!strcmp(words[1], "tight")) put(tight, sizeof tight);
    else if (!strcmp(words[1], "sort")) put(sort, sizeof sort);
    else put(fib, sizeof fib);
    h.x[2] = BASE + SIZE;
    h.x[10] = (uint32_t)strtoul(words[2], NULL, 10);
    while ((stepped = step(&h)) == RETIRED) retired++;
    if (stepped == EXIT) printf("%llu instructions, code %d\n", (unsigned long long)retired, (int)(int32_t)h.x[10]);
    else printf("%llu instructions, and then a stop\n", (unsigned long long)retired);
    return 0;
}
