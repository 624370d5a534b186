/* A plain interpreter of the machine's instructions, by which the kernel's speed is measured: interpreter WORDS TURNS SEED
 * runs the code of a file of numbers until so many turns are used up, and shows them. It takes its choices from the generator
 * of `--seed SEED`, where SEED is not `-`, and else takes the first of the ready ones.
 *
 * It makes the tests that docs/reference/machine.md asks of an execution (the frame's bounds, the memory's, the ranges), but
 * not that the program counter is in the code, nor that none but the first process ends by RETURN, and none of the operands,
 * which a code is checked for before: the kernel makes all of these. It has no sets, no texts, no system calls and no
 * functions. */
#include <stdint.h>
#include <stdio.h>
#include <stdlib.h>
#include <string.h>

enum { MEMORY_WORDS = 65536, MOST_PROCESSES = 32, MOST_WORDS = 4096 };

typedef struct {
    uint32_t base, end, top, pc, first, last;
    int held, parent, children, at_when, marked;
} Process;

static uint16_t memory[MEMORY_WORDS + 1];
static uint16_t code[MOST_WORDS];
static Process processes[MOST_PROCESSES];
static int ready[MOST_PROCESSES], ready_count, live = 1, marks;
static uint16_t generator;
static int is_seeded;

static void fail(const char *why, uint32_t pc) {
    printf("%s at %u\n", why, pc);
    exit(1);
}

static int next_ready(void) {
    int at = 0;
    if (ready_count == 0) fail("standstill", 0);
    if (is_seeded && ready_count > 1) {
        generator = (uint16_t)(25173u * generator + 13849u);
        at = (generator >> 8) % ready_count;
    }
    int slot = ready[at];
    memmove(ready + at, ready + at + 1, (size_t)(--ready_count - at) * sizeof ready[0]);
    return slot;
}

static void unmark(void) {
    if (marks == 0) return;
    for (int i = 0; i < MOST_PROCESSES; i++) processes[i].marked = 0;
    marks = 0;
}

#define ADDRESS_AT(i) ((uint32_t)code[pc + (i)] << 16 | code[pc + (i) + 1])
#define BAD() fail("bad", pc)
#define HAS(n) do { if (top - base < 5 + (n)) BAD(); } while (0)
#define PUSH(x) do { if (top >= end) BAD(); memory[top++] = (uint16_t)(x); } while (0)
#define IN_RANGE(z) do { if ((z) < -32768 || (z) > 32767) fail("range", pc); } while (0)
#define BINARY(value) do { HAS(2); int y = (int16_t)memory[top - 1], x = (int16_t)memory[top - 2]; (void)x; int z = (value); \
    IN_RANGE(z); top -= 2; PUSH(z); } while (0)
#define TURN() do { if (left == 0) return bound; left--; } while (0)

static uint64_t run(uint64_t bound) {
    uint64_t left = bound;
    int slot = 0;
    uint32_t base = 0, end = code[1], top = 5 + code[3] + code[4], pc = 6, first = 0, last = MEMORY_WORDS;
    int held = 0;
    TURN();
    for (;;) {
        switch (code[pc]) {
        case 1: PUSH(code[pc + 1]); pc += 2; break;
        case 4: {
            uint32_t at = base;
            for (int k = code[pc + 1]; k > 0; k--) at = memory[at];
            at += code[pc + 2];
            if (at >= MEMORY_WORDS) BAD();
            PUSH(at);
            pc += 3;
            break;
        }
        case 5: {
            HAS(1);
            uint32_t at = memory[top - 1] + code[pc + 1];
            if (at >= MEMORY_WORDS) BAD();
            memory[top - 1] = (uint16_t)at;
            pc += 2;
            break;
        }
        case 6: {
            HAS(2);
            int i = (int16_t)memory[top - 1];
            if (i < (int16_t)code[pc + 1] || i > (int16_t)code[pc + 2]) fail("range", pc);
            uint32_t at = memory[top - 2] + (uint32_t)(i - (int16_t)code[pc + 1]) * code[pc + 3];
            if (at >= MEMORY_WORDS) BAD();
            memory[--top - 1] = (uint16_t)at;
            pc += 5;
            break;
        }
        case 7: {
            HAS(1);
            uint32_t at = memory[--top], n = code[pc + 1];
            if (at + n > MEMORY_WORDS || top + n > end) BAD();
            if (n == 1) memory[top] = memory[at];
            else memmove(memory + top, memory + at, n * 2);
            top += n;
            pc += 2;
            break;
        }
        case 8: {
            uint32_t n = code[pc + 1];
            HAS(n + 1);
            top -= n + 1;
            uint32_t at = memory[top];
            if (at + n > MEMORY_WORDS) BAD();
            if (n == 1) memory[at] = memory[top + 1];
            else memmove(memory + at, memory + top + 1, n * 2);
            pc += 2;
            break;
        }
        case 9: BINARY(x + y); pc += 2; break;
        case 10: BINARY(x - y); pc += 2; break;
        case 11: BINARY(x * y); pc += 2; break;
        case 12: BINARY(y == 0 ? 65536 : x / y); pc += 2; break;
        case 13: BINARY(y == 0 ? 65536 : x % y); pc += 2; break;
        case 14: {
            HAS(1);
            int z = -(int16_t)memory[top - 1];
            IN_RANGE(z);
            memory[top - 1] = (uint16_t)z;
            pc += 2;
            break;
        }
        case 15: HAS(1); memory[top - 1] = memory[top - 1] == 0; pc += 1; break;
        case 16:
        case 17: {
            uint32_t n = code[pc + 1];
            HAS(2 * n);
            int same = n == 1 ? memory[top - 2] == memory[top - 1] : memcmp(memory + top - 2 * n, memory + top - n, n * 2) == 0;
            top -= 2 * n;
            PUSH(same == (code[pc] == 16));
            pc += 2;
            break;
        }
        case 18: BINARY(x < y); pc += 1; break;
        case 19: BINARY(x <= y); pc += 1; break;
        case 20: BINARY(x > y); pc += 1; break;
        case 21: BINARY(x >= y); pc += 1; break;
        case 27: {
            HAS(1);
            int x = (int16_t)memory[top - 1];
            if (x < (int16_t)code[pc + 1] || x > (int16_t)code[pc + 2]) fail("range", pc);
            pc += 4;
            break;
        }
        case 28: {
            uint32_t to = ADDRESS_AT(1);
            if (to <= pc) BAD();
            pc = to;
            break;
        }
        case 29: {
            uint32_t to = ADDRESS_AT(1);
            if (to <= pc) BAD();
            HAS(1);
            pc = memory[--top] == 0 ? to : pc + 3;
            break;
        }
        case 30:
        case 31: {
            uint32_t to = ADDRESS_AT(1);
            if (to <= pc) BAD();
            HAS(1);
            if ((memory[top - 1] == 0) == (code[pc] == 30)) pc = to;
            else top--, pc += 3;
            break;
        }
        case 32: pc = ADDRESS_AT(1); TURN(); unmark(); break;
        case 34: {
            uint32_t to = ADDRESS_AT(2), link = base;
            for (int k = code[pc + 1]; k > 0; k--) link = memory[link];
            if (code[to] != 33) BAD();
            uint32_t need = code[to + 1], r = code[to + 2], p = code[to + 3], v = code[to + 4], back = pc + 5;
            HAS(p);
            if (last - end < need) fail("variable limit", pc);
            memset(memory + end, 0, need * 2);
            memory[end] = (uint16_t)link;
            memory[end + 1] = (uint16_t)base;
            memory[end + 2] = (uint16_t)(back >> 16);
            memory[end + 3] = (uint16_t)back;
            memory[end + 4] = (uint16_t)(top - p);
            memmove(memory + end + 5 + r, memory + top - p, p * 2);
            base = end;
            end = base + need;
            top = base + 5 + r + p + v;
            pc = to + 6;
            TURN();
            unmark();
            break;
        }
        case 37: {
            if (base == first) { puts("done"); exit(0); }
            uint32_t r = code[pc + 1], at = base, was = memory[at + 1], to = memory[at + 4];
            if (was < first || to < was + 5 || at < to + r || at + 5 + r > MEMORY_WORDS) BAD();
            pc = (uint32_t)memory[at + 2] << 16 | memory[at + 3];
            memmove(memory + to, memory + at + 5, r * 2);
            base = was;
            end = at;
            top = to + r;
            TURN();
            unmark();
            break;
        }
        case 38: puts("halted"); exit(0);
        case 39:
        case 44: {
            int is_arrival = code[pc] == 39;
            if (held != !is_arrival) BAD();
            held = 0;
            pc = is_arrival ? pc + 2 : ADDRESS_AT(1);
            TURN();
            Process *p = processes + slot;
            p->base = base, p->end = end, p->top = top, p->pc = pc, p->at_when = 1;
            ready[ready_count++] = slot;
            if (is_arrival) unmark();
            else {
                if (!p->marked) p->marked = 1, marks++;
                if (marks == ready_count) fail("standstill", pc);
            }
            goto taken;
        }
        case 41: if (held != 1) BAD(); held = 0; unmark(); pc += 1; break;
        case 42: {
            int n = code[pc + 1];
            if (held != 0) BAD();
            if (live + n > MOST_PROCESSES) fail("process limit", pc);
            uint32_t share = (last - end) / (uint32_t)n, at = pc + 3;
            processes[slot] = (Process){base, end, top, pc + 3 + 3 * (uint32_t)n, first, last, 0, processes[slot].parent, n, 0, 0};
            unmark();
            TURN();
            for (int i = 0, free = 0; i < n; i++, at += 3) {
                while (free == slot || free == 0 || processes[free].base != 0) free++;
                uint32_t from = end + (uint32_t)i * share;
                if (share < code[at]) fail("variable limit", pc);
                memset(memory + from, 0, 10);
                memory[from] = (uint16_t)base;
                pc = at;
                processes[free] = (Process){from, from + code[at], from + 5, ADDRESS_AT(1), from, from + share, 0, slot, 0, 0, 0};
                ready[ready_count++] = free;
                live++;
            }
            goto taken;
        }
        case 43: {
            if (slot == 0 || base != first || held != 0) BAD();
            TURN();
            int parent = processes[slot].parent;
            processes[slot].base = 0;
            live--;
            unmark();
            if (--processes[parent].children == 0) ready[ready_count++] = parent;
            goto taken;
        }
        default: BAD();
        }
        continue;
    taken:
        slot = next_ready();
        Process *p = processes + slot;
        base = p->base, end = p->end, top = p->top, pc = p->pc, first = p->first, last = p->last, held = p->at_when;
        p->at_when = 0;
    }
}

int main(int count, char **words) {
    if (count != 4) return 2;
    FILE *file = fopen(words[1], "r");
    if (file == NULL) return 2;
    int length = 0;
    for (unsigned word; length < MOST_WORDS && fscanf(file, "%u", &word) == 1;) code[length++] = (uint16_t)word;
    is_seeded = strcmp(words[3], "-") != 0;
    generator = (uint16_t)(is_seeded ? atoi(words[3]) : 0);
    printf("%llu turns\n", (unsigned long long)run(strtoull(words[2], NULL, 10)));
    return 0;
}
