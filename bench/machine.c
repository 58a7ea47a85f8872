// A plain interpreter of the stack machine's operations, to compare the machine's speed with. It has the same operations
// in the same order as the modules of bench/shapes.py, but for one or two in a loop; they are decoded once, in one loop with a switch; it tests what the definition of a step tests
// (addresses, ranges, indices, room of a frame), and no operands.
//
//   cc -O2 -o machine bench/machine.c && ./machine add 10000000
//
// The programs: add (a sum in a WHILE loop), index (an element of an array in a WHILE loop), call (a procedure of one
// parameter in a WHILE loop). It prints the operations and the milliseconds.
#include <stdint.h>
#include <stdio.h>
#include <stdlib.h>
#include <string.h>
#include <time.h>

enum Code { PUSH, LOCAL, LOAD, STORE, INDEX, ADD, LT, JUMP, JUMP_FALSE, CALL, RETURN };

struct Op {
    enum Code code;
    int64_t a;
    uint32_t b;
    uint32_t c;
};

struct Frame {
    size_t at, base, top, link;
};

struct Routine {
    size_t entry, params, size;
};

enum { CELLS = 1000 };

static int64_t cells[CELLS];
static int64_t stack[CELLS];
static struct Frame frames[CELLS / 4 + 1];

// Runs from the first operation on, and answers how many were made; a trap ends the program.
static uint64_t run(const struct Op *ops, const struct Routine *routines) {
    size_t at = 0, base = 10, top = 30, link = 0, heap = CELLS, depth = 0;
    int64_t *sp = stack;
    uint64_t steps = 0;
    for (;;) {
        const struct Op *op = &ops[at];
        steps++;
        switch (op->code) {
        case PUSH:
            *sp++ = op->a;
            at++;
            break;
        case LOCAL:
            *sp++ = (int64_t)(base + op->b);
            at++;
            break;
        case LOAD: {
            int64_t a = sp[-1];
            if (a < 1 || a >= CELLS) exit(3);
            sp[-1] = cells[a];
            at++;
            break;
        }
        case STORE: {
            int64_t a = sp[-2];
            if (a < 1 || a >= CELLS) exit(3);
            cells[a] = sp[-1];
            sp -= 2;
            at++;
            break;
        }
        case INDEX: {
            int64_t k = sp[-1] - op->a;
            if (k < 0 || k >= (int64_t)op->b) exit(4);
            int64_t a = sp[-2] + k * (int64_t)op->c;
            if (a < 0 || a >= CELLS) exit(3);
            sp[-2] = a;
            sp -= 1;
            at++;
            break;
        }
        case ADD: {
            int64_t v = sp[-2] + sp[-1];
            if (v < -2147483648LL || v > 2147483647LL) exit(5);
            sp[-2] = v;
            sp -= 1;
            at++;
            break;
        }
        case LT:
            sp[-2] = sp[-2] < sp[-1];
            sp -= 1;
            at++;
            break;
        case JUMP:
            at = (size_t)op->a;
            break;
        case JUMP_FALSE:
            at = *--sp == 0 ? (size_t)op->a : at + 1;
            break;
        case CALL: {
            const struct Routine *p = &routines[op->a];
            if (heap < top + p->size) exit(1);
            memset(&cells[top], 0, p->size * sizeof cells[0]);
            sp -= p->params;
            memcpy(&cells[top], sp, p->params * sizeof cells[0]);
            frames[depth++] = (struct Frame){at + 1, base, top, link};
            at = p->entry;
            base = top;
            top += p->size;
            link = 0;
            break;
        }
        case RETURN:
            if (depth == 0) return steps;
            depth--;
            at = frames[depth].at;
            base = frames[depth].base;
            top = frames[depth].top;
            link = frames[depth].link;
            break;
        }
    }
}

// WHILE i < n DO s := t + 7; i := i + 1 END
static const struct Op add[] = {
    {PUSH, 1, 0, 0}, {LOAD, 0, 0, 0}, {PUSH, 0, 0, 0}, {LT, 0, 0, 0}, {JUMP_FALSE, 18, 0, 0},
    {PUSH, 2, 0, 0}, {PUSH, 3, 0, 0}, {LOAD, 0, 0, 0}, {PUSH, 7, 0, 0}, {ADD, 0, 0, 0}, {STORE, 0, 0, 0},
    {PUSH, 1, 0, 0}, {PUSH, 1, 0, 0}, {LOAD, 0, 0, 0}, {PUSH, 1, 0, 0}, {ADD, 0, 0, 0}, {STORE, 0, 0, 0}, {JUMP, 0, 0, 0},
    {RETURN, 0, 0, 0},
};

// WHILE i < n DO a[3] := a[2]; i := i + 1 END
static const struct Op index_[] = {
    {PUSH, 1, 0, 0}, {LOAD, 0, 0, 0}, {PUSH, 0, 0, 0}, {LT, 0, 0, 0}, {JUMP_FALSE, 20, 0, 0},
    {PUSH, 4, 0, 0}, {PUSH, 3, 0, 0}, {INDEX, 0, 5, 1}, {PUSH, 4, 0, 0}, {PUSH, 2, 0, 0}, {INDEX, 0, 5, 1}, {LOAD, 0, 0, 0}, {STORE, 0, 0, 0},
    {PUSH, 1, 0, 0}, {PUSH, 1, 0, 0}, {LOAD, 0, 0, 0}, {PUSH, 1, 0, 0}, {ADD, 0, 0, 0}, {STORE, 0, 0, 0}, {JUMP, 0, 0, 0},
    {RETURN, 0, 0, 0},
};

// PROCEDURE P(x: INTEGER); BEGIN x := x + 1 END P; WHILE i < n DO P(i); i := i + 1 END
static const struct Op call[] = {
    {PUSH, 1, 0, 0}, {LOAD, 0, 0, 0}, {PUSH, 0, 0, 0}, {LT, 0, 0, 0}, {JUMP_FALSE, 15, 0, 0},
    {PUSH, 1, 0, 0}, {LOAD, 0, 0, 0}, {CALL, 0, 0, 0},
    {PUSH, 1, 0, 0}, {PUSH, 1, 0, 0}, {LOAD, 0, 0, 0}, {PUSH, 1, 0, 0}, {ADD, 0, 0, 0}, {STORE, 0, 0, 0}, {JUMP, 0, 0, 0},
    {RETURN, 0, 0, 0},
    {LOCAL, 0, 0, 0}, {LOCAL, 0, 0, 0}, {LOAD, 0, 0, 0}, {PUSH, 1, 0, 0}, {ADD, 0, 0, 0}, {STORE, 0, 0, 0}, {RETURN, 0, 0, 0},
};

static const struct Routine routines[] = {{16, 1, 8}};

int main(int count, char **words) {
    if (count != 3) return 2;
    struct Op ops[32];
    if (strcmp(words[1], "add") == 0) memcpy(ops, add, sizeof add);
    else if (strcmp(words[1], "index") == 0) memcpy(ops, index_, sizeof index_);
    else if (strcmp(words[1], "call") == 0) memcpy(ops, call, sizeof call);
    else return 2;
    ops[2].a = atoll(words[2]);
    clock_t begun = clock();
    uint64_t steps = run(ops, routines);
    double milliseconds = (double)(clock() - begun) * 1e3 / CLOCKS_PER_SEC;
    printf("run %s: %llu operations, %.3f ms\n", words[1], (unsigned long long)steps, milliseconds);
    return 0;
}
