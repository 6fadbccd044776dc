/* Stack that trim, judge and find use: each call runs on a stack of its own that was painted before, and the words from the lowest one that
 * changed up to the top are those used. What a call of an empty function uses is taken off. Trees: the shapes below, random ones of 24 ends
 * from a fixed seed, and files of trees in hex, one a line. Prints the most that each call used, and on which tree. */
#define _GNU_SOURCE
#include "../travelring.h"
#include <stdio.h>
#include <stdlib.h>
#include <string.h>
#include <ucontext.h>

enum { WORDS = 1 << 15, ENDS = 24, RANDOM = 20000 };
static const uint64_t PAINT = UINT64_C(0xa5c3a5c3a5c3a5c3);
static _Alignas(64) uint64_t stack[WORDS];
static uint8_t tree[256];
static size_t len;

static uint8_t out[TRAVELRING_LONGEST];
static travelring_whole numbers[TRAVELRING_NUMBERS];
static uint64_t report[4];
static uint32_t answer;

__attribute__((noinline)) static void call_nothing(void) { __asm__ volatile(""); }
static void call_trim(void) { answer = travelring_trim(tree, len, UINT32_MAX, out, sizeof out, report); }
static void call_judge(void) { answer = travelring_judge(tree, len, 0, numbers, TRAVELRING_NUMBERS, report); }
static void call_find(void) { answer = travelring_find(tree, len, numbers, TRAVELRING_NUMBERS, report); }

static void paint(size_t from) {
    for (size_t i = from; i < WORDS; i++)
        stack[i] = PAINT;
}

/* Bytes of the painted stack that the call used; painted again for the next. */
static size_t used(void (*call)(void)) {
    static ucontext_t here, there;
    getcontext(&there);
    there.uc_stack.ss_sp = stack;
    there.uc_stack.ss_size = sizeof stack;
    there.uc_link = &here;
    makecontext(&there, call, 0);
    swapcontext(&here, &there);
    size_t low = 0;
    while (low < WORDS && stack[low] == PAINT) /* an empty function may use no stack at all */
        low++;
    if (low == 0) {
        puts("the painted stack is too small");
        exit(1);
    }
    paint(low);
    return 8 * (WORDS - low);
}

static struct {
    const char *name;
    void (*call)(void);
    size_t most, len;
    char shape[96];
    uint8_t tree[256];
} calls[] = {{.name = "trim", .call = call_trim}, {.name = "judge", .call = call_judge}, {.name = "find", .call = call_find}};
static size_t trees, refused, base;

static void measure(const char *shape) {
    trees++;
    for (int i = 0; i < 3; i++) {
        size_t now = used(calls[i].call) - base;
        refused += (size_t)travelring_of_reading(answer);
        if (now > calls[i].most) {
            calls[i].most = now;
            calls[i].len = len;
            snprintf(calls[i].shape, sizeof calls[i].shape, "%s", shape);
            memcpy(calls[i].tree, tree, len);
        }
    }
}

/* How the shapes below choose their connectives, by depth, and their ends, by number. */
static const char *joins;
static int kind, next_end;

static void put_end(int last) {
    int i = next_end++;
    uint8_t y = (uint8_t)(i % TRAVELRING_NUMBERS), x = (uint8_t)(y + 1), c = (uint8_t)(2 * i), not_first = i > 0 && !last;
    uint8_t ends[][4] = {
        {4, (uint8_t)i},                          /* booleans, all different */
        {(uint8_t)(4 + i % 2), (uint8_t)(i / 2)}, /* p, not p, q, not q .. */
        {4 + not_first, last},                    /* p, then not p, the last another: each guess fails but the last */
        {6, x, y, c},                             /* x - y <= i */
        {6, x, y, 1},                             /* x - y <= -1: chains that close below zero */
        {(uint8_t)(6 + i % 2), 1, 0, c},          /* bounds of one number from both sides */
        {6 + not_first, 1, last ? 2 : 0, 4},      /* x <= 2, then not x <= 2, the last another */
        {last ? 6 : 0, 1, 2, 4},                  /* false, the last a bound; trim folds it away */
    };
    static const size_t lengths[] = {1, 1, 2, 2, 2, 2, 4, 4}; /* by tag */
    size_t length = lengths[ends[kind][0]];
    memcpy(tree + len, ends[kind], length);
    len += length;
}

static void put_join(int depth, int children) {
    tree[len++] = (depth < 2 ? joins[depth] : joins[2 + depth % 2]) == 'a' ? 2 : 3;
    tree[len++] = (uint8_t)children;
}

/* A tree of `ends` ends: each connective has `children` (or as many as ends are left), all of them ends but the one at `deep`. */
static void put_chain(int ends, int children, int deep, int depth) {
    if (ends == 1) {
        put_end(next_end == ENDS - 1);
        return;
    }
    int many = children < ends ? children : ends;
    put_join(depth, many);
    for (int i = 0; i < many; i++)
        put_chain(i == (deep < many ? deep : many - 1) ? ends - many + 1 : 1, children, deep, depth + 1);
}

static void chains(void) {
    static const char *const all_joins[] = {"aaaa", "oooo", "aoao", "oaoa", "aooo", "oaaa", "aaoo", "ooaa"};
    char shape[96];
    for (int j = 0; j < 8; j++)
        for (kind = 0; kind < 8; kind++)
            for (int children = 2; children <= ENDS; children++)
                for (int deep = 0; deep < children; deep++) {
                    joins = all_joins[j];
                    len = 0, next_end = 0;
                    put_chain(ENDS, children, deep, 0);
                    snprintf(shape, sizeof shape, "%s, ends of kind %d, %d children, the deep one at %d", joins, kind, children, deep);
                    measure(shape);
                    len = 0, next_end = 0; /* and with an end before it */
                    put_join(0, 2);
                    put_end(0);
                    put_chain(ENDS - 1, children, deep, 1);
                    snprintf(shape, sizeof shape, "%s, ends of kind %d, one and then %d children, the deep one at %d", joins, kind, children, deep);
                    measure(shape);
                }
}

static int below(int n) {
    static uint64_t state = 1;
    state = state * 6364136223846793005u + 1442695040888963407u;
    return (int)((state >> 33) % (uint64_t)n);
}

static void put_random(int ends) {
    if (ends == 1) {
        kind = below(7);
        put_end(next_end == ENDS - 1);
        return;
    }
    int many = below(3) ? 2 : 2 + below(ends - 1), spare = ends - many;
    tree[len++] = (uint8_t)(2 + below(2)), tree[len++] = (uint8_t)many;
    for (int i = 1; i <= many; i++) {
        int more = i == many ? spare : below(2) ? 0 : below(2) ? spare : below(spare + 1);
        spare -= more;
        put_random(1 + more);
    }
}

static void file(const char *path) {
    char line[1024];
    FILE *f = fopen(path, "r");
    if (!f) {
        perror(path);
        exit(1);
    }
    while (fgets(line, sizeof line, f)) {
        unsigned byte;
        len = 0;
        for (const char *at = line; sscanf(at, "%2x", &byte) == 1; at += 2)
            tree[len++] = (uint8_t)byte;
        measure(path);
    }
    fclose(f);
}

int main(int argc, char **argv) {
    paint(0);
    used(call_nothing); /* the linker's work at the first call */
    base = used(call_nothing);
    chains();
    for (int i = 0; i < RANDOM; i++) {
        len = 0, next_end = 0;
        put_random(ENDS);
        measure("random");
    }
    for (int i = 1; i < argc; i++)
        file(argv[i]);
    if (refused) {
        printf("%zu answers were refusals of the bytes: a tree is built wrongly\n", refused);
        return 1;
    }
    printf("%zu trees, each by each call; bytes of stack at most:\n", trees);
    for (int i = 0; i < 3; i++) {
        printf("%-5s %6zu (%s):", calls[i].name, calls[i].most, calls[i].shape);
        for (size_t j = 0; j < calls[i].len; j++)
            printf(" %02x", calls[i].tree[j]);
        printf("\n");
    }
    return 0;
}
