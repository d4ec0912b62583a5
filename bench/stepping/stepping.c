/* A debugger's machine for RV32I, beside which bench/stepping/run times crates/bench, of the same design. A word is
   decoded once, to a record that names its address, and forgotten where a store changes it; memory is a table of pages. In the
   loop the pc and the count of moves are kept apart; calls and returns are noted, of which 256 are kept; and where there are
   breakpoints, or the goal may be met, the new pc is looked up by a mark for each word of 256 KiB, and then closer, in a sorted list
   and by the goal. With RECORDED, what undoes a move is recorded in a ring of so many: the address of its instruction,
   the register that it writes, with its value, the bytes over which it stores, and what it does to the calls, in 24 bytes. Words: the
   program, the value of a0 at the start, and how it is run: `go COUNT`, `over` or `if CONDITION`, as in
   crates/bench/src/way.rt; or `back COUNT`, where it is run back over all that is recorded, so often, and the least time is told. */
#include <time.h>
#include "../hart/decode.h"

#define FAR 0x00020000u
#define KEPT 256
#define LIMIT 1024
#define SLICE 100000
#define PLACES 16384u
#define MARKS 65536u

/* What an instruction comes to; a call of the environment and EBREAK are settled apart. */
enum done { RETIRED, TRAP, CALL, BREAK };

/* What a move did to the calls: it called, or it returned, or both; and a call was kept no longer. */
enum called { NOTHING, PUSHED, PUSHED_OUT, POPPED, POPPED_FROM, SWAPPED, SWAPPED_FROM };

/* Which register an instruction writes, 0 where it writes none; how many bytes it stores; what it did to the calls; and whether it is a
   plain one, which changes registers and pc alone. */
struct effect { uint8_t writes, stores, called, is_plain; };

/* A decoded word, which names its address, 1 where there is none. */
struct entry { uint32_t pc; struct effect effect; struct instr i; };

/* What undoes a move. */
struct move { uint32_t pc, address, value; uint8_t bytes[4]; struct effect effect; uint32_t lost; };

/* The calls kept, in a ring, and how many have not returned. */
struct calls { uint64_t depth; uint32_t newest, kept, at[KEPT]; };

/* A condition: a number, a register, or an operator with its operands. */
enum kind { NUMBER, REGISTER, WORD, EQUAL, LESS, MINUS, TIMES };

struct node { enum kind kind; uint32_t number; const struct node *left, *right; };

struct breakpoint { uint32_t id, address, hit, hits; const struct node *condition; };

enum goal { GO, OVER };

/* A source line, the address of its first word, and how many it has. */
struct row { uint32_t line, address, words; };

enum outcome { WENT, SOURCE, INSTRUCTION, GOAL, START, EBREAK_STOP, EXCEPTION, ENDED };

struct tick { enum outcome outcome; int prints; int32_t number; };

enum ending { SPENT, TICKED };

/* What ended moves in a row: that there were so many, a place that has to be looked at, or a move that is no plain one. */
enum end { ENOUGH, NEAR, HALTED };

struct burst { uint32_t went, pc; enum end end; enum done done; };

struct ran { uint32_t went; enum ending ending; struct tick tick; };

struct runner {
    struct hart hart;
    struct calls calls;
    uint64_t retired, start, reach;
    enum goal goal;
    struct entry entries[PLACES];
    struct breakpoint list[LIMIT];
    uint32_t count, ids[LIMIT], stopped;
    uint8_t marks[MARKS];
    struct row rows[64];
    uint32_t lines;
#ifdef RECORDED
    struct move moves[RECORDED], *next;
    uint32_t recorded;
#endif
};

/* Does what an instruction at pc says; next: the pc after it. */
static inline __attribute__((always_inline)) enum done execute(struct hart *h, uint32_t pc, const struct instr *i, uint32_t *next)
{
    uint32_t *x = h->x, v = 0, target;
    uint16_t halfword;
    uint8_t byte;
    uint32_t a = x[i->rs1], b = x[i->rs2], sum = a + i->imm;
    int taken;
    *next = pc + 4;
    switch (i->op) {
    case LUI: v = i->imm; break;
    case AUIPC: v = pc + i->imm; break;
    case JAL: target = pc + i->imm; goto jump;
    case JALR: target = sum & ~1u; goto jump;
    case BEQ: taken = a == b; goto branch;
    case BNE: taken = a != b; goto branch;
    case BLT: taken = (int32_t)a < (int32_t)b; goto branch;
    case BGE: taken = (int32_t)a >= (int32_t)b; goto branch;
    case BLTU: taken = a < b; goto branch;
    case BGEU: taken = a >= b; goto branch;
    case LB: if (!load(sum, 1, &byte)) return TRAP; v = (uint32_t)(int8_t)byte; break;
    case LBU: if (!load(sum, 1, &byte)) return TRAP; v = byte; break;
    case LH: if (!load(sum, 2, &halfword)) return TRAP; v = (uint32_t)(int16_t)halfword; break;
    case LHU: if (!load(sum, 2, &halfword)) return TRAP; v = halfword; break;
    case LW: if (!load(sum, 4, &v)) return TRAP; break;
    case SB: byte = (uint8_t)b; return store(sum, 1, &byte) ? RETIRED : TRAP;
    case SH: halfword = (uint16_t)b; return store(sum, 2, &halfword) ? RETIRED : TRAP;
    case SW: return store(sum, 4, &b) ? RETIRED : TRAP;
    case ADDI: v = sum; break;
    case SLTI: v = (int32_t)a < (int32_t)i->imm; break;
    case SLTIU: v = a < i->imm; break;
    case XORI: v = a ^ i->imm; break;
    case ORI: v = a | i->imm; break;
    case ANDI: v = a & i->imm; break;
    case SLLI: v = a << i->rs2; break;
    case SRLI: v = a >> i->rs2; break;
    case SRAI: v = (uint32_t)((int32_t)a >> i->rs2); break;
    case ADD: v = a + b; break;
    case SUB: v = a - b; break;
    case SLL: v = a << (b & 31); break;
    case SLT: v = (int32_t)a < (int32_t)b; break;
    case SLTU: v = a < b; break;
    case XOR: v = a ^ b; break;
    case SRL: v = a >> (b & 31); break;
    case SRA: v = (uint32_t)((int32_t)a >> (b & 31)); break;
    case OR: v = a | b; break;
    case AND: v = a & b; break;
    case FENCE: return RETIRED;
    case ECALL: return CALL;
    case EBREAK: return BREAK;
    default: return TRAP;
    }
    x[i->rd] = v;
    x[0] = 0;
    return RETIRED;
jump:
    if (target % 4 != 0) return TRAP;
    x[i->rd] = pc + 4;
    x[0] = 0;
    *next = target;
    return RETIRED;
branch:
    target = taken ? pc + i->imm : pc + 4;
    if (target % 4 != 0) return TRAP;
    *next = target;
    return RETIRED;
}

static int is_link(uint32_t number)
{
    return number == 1 || number == 5;
}

/* A call; lost: the one that is kept no longer. */
static enum called push(struct calls *c, uint32_t pc, uint32_t *lost)
{
    c->depth++;
    c->newest = (c->newest + 1) % KEPT;
    *lost = c->at[c->newest];
    c->at[c->newest] = pc;
    if (c->kept == KEPT) return PUSHED_OUT;
    c->kept++;
    return PUSHED;
}

/* A return; lost: the call that it returns from. */
static enum called pop(struct calls *c, uint32_t *lost)
{
    if (c->depth == 0) return NOTHING;
    c->depth--;
    if (c->kept == 0) return POPPED;
    *lost = c->at[c->newest];
    c->kept--;
    c->newest = (c->newest + KEPT - 1) % KEPT;
    return POPPED_FROM;
}

/* Notes a jump. */
static enum called note(struct calls *c, const struct instr *i, uint32_t pc, uint32_t *lost)
{
    int calls = is_link(i->rd), returns = i->op == JALR && is_link(i->rs1) && !(calls && i->rd == i->rs1);
    enum called called = returns ? pop(c, lost) : NOTHING;
    uint32_t none;
    if (!calls) return called;
    if (called == NOTHING) return push(c, pc, lost);
    push(c, pc, &none);
    return called == POPPED ? SWAPPED : SWAPPED_FROM;
}

/* The value of a condition; 0: it has none. */
static int evaluate(const struct node *n, const struct hart *h, uint32_t *value)
{
    uint32_t a, b;
    switch (n->kind) {
    case NUMBER: *value = n->number; return 1;
    case REGISTER: *value = h->x[n->number]; return 1;
    case WORD:
        return evaluate(n->left, h, &a) && load(a, 4, value);
    default: break;
    }
    if (!evaluate(n->left, h, &a) || !evaluate(n->right, h, &b)) return 0;
    switch (n->kind) {
    case EQUAL: *value = a == b; break;
    case LESS: *value = (int32_t)a < (int32_t)b; break;
    case MINUS: *value = a - b; break;
    default: *value = a * b; break;
    }
    return 1;
}

/* Looks at the breakpoints at pc: counts their hits, and says whether one stops. */
__attribute__((noinline)) static int check(struct runner *r, uint32_t pc)
{
    uint32_t low = 0, high = r->count, value;
    while (low < high) {
        uint32_t middle = (low + high) / 2;
        if (r->list[middle].address < pc) low = middle + 1;
        else high = middle;
    }
    for (; low < r->count && r->list[low].address == pc; low++) {
        struct breakpoint *b = &r->list[low];
        if (b->condition && evaluate(b->condition, &r->hart, &value) && value == 0) continue;
        if (b->hits < UINT32_MAX) b->hits++;
        if (b->hits >= b->hit) r->ids[r->stopped++] = b->id;
    }
    return r->stopped > 0;
}

/* Whether a breakpoint may be at pc, or as far from it as there are marks. */
static inline int is_marked(const struct runner *r, uint32_t pc)
{
    return r->marks[pc / 4 % MARKS];
}

/* Whether pc is the first address of a line, or outside all lines. */
__attribute__((noinline)) static int is_place(const struct runner *r, uint32_t pc)
{
    uint32_t low = 0, high = r->lines;
    while (low < high) {
        uint32_t middle = (low + high) / 2;
        if (r->rows[middle].address + 4 * r->rows[middle].words <= pc) low = middle + 1;
        else high = middle;
    }
    return low == r->lines || r->rows[low].address >= pc;
}

static int is_met(const struct runner *r)
{
    return r->goal == OVER && r->calls.depth <= r->start && is_place(r, r->hart.pc);
}

/* Decodes the word at pc, if there is one, and remembers it; 0: it traps. */
__attribute__((noinline, cold)) static int learn(struct runner *r, uint32_t pc)
{
    struct entry e = { pc, { 0, 0, NOTHING, 1 }, { 0, 0, 0, 0, 0 } };
    uint32_t w;
    if (!load(pc, 4, &w)) return 0;
    e.i = decode(w);
    if (e.i.op == ILLEGAL) return 0;
    e.effect.stores = e.i.op == SB ? 1 : e.i.op == SH ? 2 : e.i.op == SW ? 4 : 0;
    e.effect.writes = e.effect.stores || (e.i.op >= BEQ && e.i.op <= BGEU) || e.i.op >= FENCE ? 0 : e.i.rd;
    e.effect.is_plain = !e.effect.stores && !(e.i.op == JAL && is_link(e.i.rd))
        && !(e.i.op == JALR && (is_link(e.i.rd) || is_link(e.i.rs1)));
    r->entries[pc / 4 % PLACES] = e;
    return 1;
}

static inline void forget(struct runner *r, uint32_t address)
{
    struct entry *e = &r->entries[address / 4 % PLACES];
    if (e->pc == (address & ~3u)) e->pc = 1;
}

#ifdef RECORDED
/* What undoes the move of an instruction, before it is made. */
static inline __attribute__((always_inline)) void record(struct runner *r, struct move *m, uint32_t pc, const struct entry *e)
{
    m->pc = pc;
    m->value = r->hart.x[e->effect.writes];
    m->effect = e->effect;
    if (!e->effect.stores) return;
    m->address = r->hart.x[e->i.rs1] + e->i.imm;
    if (e->effect.stores == 4) load(m->address, 4, m->bytes);
    else if (e->effect.stores == 2) load(m->address, 2, m->bytes);
    else load(m->address, 1, m->bytes);
}

/* The place after one in the ring. */
static inline struct move *after(struct runner *r, struct move *m)
{
    return m == r->moves + RECORDED - 1 ? r->moves : m + 1;
}

/* So many moves more are recorded, and the next one is at this place. */
static void keep(struct runner *r, struct move *next, uint32_t moves)
{
    r->next = next;
    r->recorded = moves < RECORDED - r->recorded ? r->recorded + moves : RECORDED;
}

static void unnote(struct calls *c, const struct move *m)
{
    enum called called = m->effect.called;
    if (called == NOTHING) return;
    if (called <= PUSHED_OUT) c->depth--;
    else if (called <= POPPED_FROM) c->depth++;
    if (called == PUSHED_OUT || called == SWAPPED_FROM) c->at[c->newest] = m->lost;
    if (called == PUSHED || called == SWAPPED) c->kept--;
    if (called == PUSHED || called == PUSHED_OUT || called == SWAPPED) c->newest = (c->newest + KEPT - 1) % KEPT;
    if (called == POPPED_FROM) {
        c->newest = (c->newest + 1) % KEPT;
        c->at[c->newest] = m->lost;
        c->kept++;
    }
}

/* Undoes the newest move. */
static void undo(struct runner *r)
{
    struct move *m = r->next == r->moves ? r->moves + RECORDED - 1 : r->next - 1;
    if (m->effect.stores == 4) store(m->address, 4, m->bytes);
    else if (m->effect.stores == 2) store(m->address, 2, m->bytes);
    else if (m->effect.stores == 1) store(m->address, 1, m->bytes);
    if (m->effect.stores) forget(r, m->address);
    r->hart.x[m->effect.writes] = m->value;
    r->hart.x[0] = 0;
    r->hart.pc = m->pc;
    unnote(&r->calls, m);
    r->next = m;
    r->recorded--;
    r->retired--;
}

/* Whether a breakpoint stands at pc, however often it was hit. */
__attribute__((noinline)) static int stands(struct runner *r, uint32_t pc)
{
    uint32_t value;
    for (uint32_t k = 0; k < r->count; k++)
        if (r->list[k].address == pc && !(r->list[k].condition && evaluate(r->list[k].condition, &r->hart, &value) && value == 0)) return 1;
    return 0;
}

/* Undoes so many moves at most, up to a breakpoint or the oldest that is recorded; there is one at least. */
static enum outcome run_back(struct runner *r, uint32_t most)
{
    while (most-- > 0) {
        undo(r);
        if (is_marked(r, r->hart.pc) && stands(r, r->hart.pc)) return INSTRUCTION;
        if (r->recorded == 0) return START;
    }
    return WENT;
}
#endif

/* Makes moves in a row, so many at most. */
__attribute__((noinline)) static struct burst retire(struct runner *r, uint32_t most)
{
    int watches = r->count > 0 || r->reach > 0;
    struct burst b = { 0, 0, ENOUGH, RETIRED };
    uint32_t pc = r->hart.pc, next = 0, lost = 0, went;
#ifdef RECORDED
    struct move *m = r->next;
#endif
    for (went = 0; went < most; went++) {
        struct entry *e = &r->entries[pc / 4 % PLACES];
        enum done done = TRAP;
        enum called called;
        if (e->pc == pc || learn(r, pc)) {
#ifdef RECORDED
            record(r, m, pc, e);
#endif
            done = execute(&r->hart, pc, &e->i, &next);
        }
        if (done != RETIRED) {
            b.end = HALTED;
            b.done = done;
            break;
        }
        if (!e->effect.is_plain) {
            if (e->effect.stores) {
                forget(r, r->hart.x[e->i.rs1] + e->i.imm);
            } else {
                called = note(&r->calls, &e->i, pc, &lost);
#ifdef RECORDED
                m->effect.called = called;
                m->lost = lost;
#else
                (void)called;
#endif
            }
        }
#ifdef RECORDED
        m = after(r, m);
#endif
        pc = next;
        if (watches && (is_marked(r, pc) || r->calls.depth < r->reach)) {
            b.end = NEAR;
            break;
        }
    }
    b.went = went;
    b.pc = pc;
#ifdef RECORDED
    keep(r, m, went + (b.end == NEAR));
#endif
    return b;
}

/* What there is to see at pc: a breakpoint that stops, and then the goal. */
static enum outcome look(struct runner *r)
{
    r->stopped = 0;
    if (is_marked(r, r->hart.pc) && check(r, r->hart.pc)) return INSTRUCTION;
    return is_met(r) ? GOAL : WENT;
}

/* The move that is no plain one. */
__attribute__((noinline, cold)) static struct tick settle(struct runner *r, enum done done)
{
    struct tick t = { EXCEPTION, 0, 0 };
    uint32_t *x = r->hart.x;
    if (done == TRAP || (done == CALL && x[17] != 93 && x[17] != 1)) return t;
    t.number = (int32_t)x[10];
    if (done == CALL && x[17] == 93) { t.outcome = ENDED; return t; }
#ifdef RECORDED
    record(r, r->next, r->hart.pc, &(struct entry){ 0, { 0, 0, NOTHING, 1 }, { 0, 0, 0, 0, 0 } });
    keep(r, after(r, r->next), 1);
#endif
    r->hart.pc += 4;
    r->retired++;
    t.prints = done == CALL;
    t.outcome = look(r);
    if (done == BREAK) t.outcome = EBREAK_STOP;
    return t;
}

static struct ran run(struct runner *r, uint32_t most)
{
    struct ran ran = { 0, SPENT, { WENT, 0, 0 } };
    while (ran.went < most) {
        struct burst b = retire(r, most - ran.went);
        r->hart.pc = b.pc;
        r->retired += b.went + (b.end == NEAR);
        ran.went += b.went;
        if (b.end == ENOUGH) break;
        if (b.end == HALTED) ran.tick = settle(r, b.done);
        else ran.tick.outcome = look(r);
        if (ran.tick.outcome != WENT || ran.tick.prints) { ran.ending = TICKED; return ran; }
        ran.went++;
    }
    return ran;
}

static void begin(struct runner *r, enum goal goal)
{
    r->goal = goal;
    r->start = r->calls.depth;
    r->reach = goal == GO ? 0 : r->start + 1;
}

/* One more breakpoint, at an address above those of the others. */
static void add(struct runner *r, uint32_t address, uint32_t hit, const struct node *condition)
{
    struct breakpoint b = { r->count, address, hit, 0, condition };
    r->list[r->count++] = b;
    r->marks[address / 4 % MARKS] = 1;
}

/* The conditions that are measured; NULL: another text. */
static const struct node *condition_of(const char *text)
{
    static const struct node a0 = { REGISTER, 10, NULL, NULL }, sp = { REGISTER, 2, NULL, NULL };
    static const struct node one = { NUMBER, 1, NULL, NULL }, two = { NUMBER, 2, NULL, NULL }, five = { NUMBER, 5, NULL, NULL };
    static const struct node equal = { EQUAL, 0, &a0, &five };
    static const struct node twice = { TIMES, 0, &a0, &two }, less_one = { MINUS, 0, &twice, &one };
    static const struct node word = { WORD, 0, &sp, NULL }, less = { LESS, 0, &less_one, &word };
    if (!strcmp(text, "a0 == 5")) return &equal;
    if (!strcmp(text, "a0 * 2 - 1 < [sp]")) return &less;
    return NULL;
}

/* Loads a program, each word of which is a line of its own. */
static void begin_with(struct runner *r, const uint32_t *words, size_t bytes)
{
    put(words, bytes);
    for (uint32_t k = 0; k < PLACES; k++) r->entries[k].pc = 1;
#ifdef RECORDED
    r->next = r->moves;
#endif
    for (uint32_t i = 0; i < bytes / 4; i++) {
        struct row row = { i + 1, BASE + 4 * i, 1 };
        r->rows[r->lines++] = row;
    }
}

#ifdef RECORDED
/* Runs a program for as many moves as are recorded and back, so often, and tells the least time of a run back. Each round leads to where the
   first did. */
static int back(struct runner *r, unsigned long rounds)
{
    double least = 1e9;
    struct hart start = r->hart, end = r->hart;
    for (unsigned long round = 0; round < rounds; round++) {
        struct timespec from, to;
        if (run(r, RECORDED).ending != SPENT) return 2;
        if (round == 0) end = r->hart;
        if (memcmp(&r->hart, &end, sizeof end)) return 3;
        clock_gettime(CLOCK_MONOTONIC, &from);
        if (run_back(r, RECORDED) != START) return 3;
        clock_gettime(CLOCK_MONOTONIC, &to);
        if (r->retired != 0 || r->calls.depth != 0 || memcmp(&r->hart, &start, sizeof start)) return 3;
        double ms = (double)(to.tv_sec - from.tv_sec) * 1e3 + (double)(to.tv_nsec - from.tv_nsec) / 1e6;
        if (ms < least) least = ms;
    }
    printf("%.3f\n", least);
    return 0;
}
#endif

int main(int count, char **words)
{
    struct runner *r = calloc(1, sizeof *r);
    struct ran ran;
    enum goal goal = GO;
    if (count < 4 || !r) return 2;
    if (!strcmp(words[1], "tight")) begin_with(r, tight, sizeof tight);
    else if (!strcmp(words[1], "sort")) begin_with(r, sort, sizeof sort);
    else begin_with(r, fib, sizeof fib);
    r->hart.pc = BASE;
    r->hart.x[2] = BASE + SIZE - 16;
    r->hart.x[10] = (uint32_t)strtoul(words[2], NULL, 10);
    if (!strcmp(words[3], "over")) goal = OVER;
    else if (count != 5) return 2;
#ifdef RECORDED
    else if (!strcmp(words[3], "back")) return back(r, strtoul(words[4], NULL, 10));
#endif
    else if (!strcmp(words[3], "if")) add(r, BASE, UINT32_MAX, condition_of(words[4]));
    else for (uint32_t i = 0; i < LIMIT && i < strtoul(words[4], NULL, 10); i++) add(r, FAR + 4 * i, 1, NULL);
    begin(r, goal);
    for (;;) {
        ran = run(r, SLICE);
        if (ran.ending == TICKED && ran.tick.outcome == GOAL) begin(r, goal);
        else if (ran.ending == TICKED && ran.tick.outcome != WENT) break;
    }
    if (ran.tick.outcome == ENDED) printf("%llu instructions, code %d\n", (unsigned long long)r->retired, ran.tick.number);
    else printf("%llu instructions, and then a stop\n", (unsigned long long)r->retired);
    return 0;
}
