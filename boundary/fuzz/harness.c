/* What the fuzzer runs for each input: trim, judge and find on one tree, each lent buffer allocated at its exact size, and what document 01
 * says of the answers checked. The input is a room, a count of numbers, a ration, boolean bits, 15 numbers, and then the tree. */
#include "../travelring.h"
#include <stdio.h>
#include <stdlib.h>
#include <string.h>

/* A planted fault, to see that it is caught: the buffer with this number is a byte shorter than the call is told. */
#ifndef SHORT
#define SHORT 0
#endif
enum { TREE = 1, OUT, NUMBERS, REPORT, HEADER = 8 + TRAVELRING_NUMBERS, MOST = 256 };

static void fail(int line) {
    fprintf(stderr, "harness.c:%d does not hold\n", line);
    abort();
}
#define must(so) ((so) ? (void)0 : fail(__LINE__))

static uint8_t preset(size_t i) { return (uint8_t)(0xa5 ^ (7 * i)); }

static int kept(const void *lent, size_t from, size_t size) {
    for (size_t i = from; i < size; i++)
        if (((const uint8_t *)lent)[i] != preset(i))
            return 0;
    return 1;
}

/* A buffer of exactly this size: a copy of `from`, or preset. */
static void *lend(int which, const void *from, size_t size) {
    size_t room = size - (which == SHORT && size > 0);
    uint8_t *lent = malloc(room ? room : 1);
    if (room == 0) /* none of its bytes is lent: the address after it is */
        return lent + 1;
    for (size_t i = 0; i < room; i++)
        lent[i] = from ? ((const uint8_t *)from)[i] : preset(i);
    return lent;
}

static void take_back(void *lent, size_t size) { free((uint8_t *)lent - (size == 0)); }

typedef struct {
    uint32_t answer;
    uint64_t place, one, two; /* trim: questions, ends; judge: value; find: boolean bits */
    size_t len;               /* trim: bytes of the result */
    uint8_t bytes[MOST];      /* trim: the result; find: the numbers */
} Said;

/* The ends of a tree that reads, constants aside, and its length: by a reader of the harness's own. */
static uint64_t ends_of(const uint8_t *tree, size_t *len) {
    static const int after[] = {0, 0, 1, 1, 1, 1, 3, 3}; /* numbers after each tag */
    uint64_t owed = 1, ends = 0, number = 0;
    size_t at = 0;
    while (owed > 0) {
        uint8_t tag = tree[at++];
        for (int i = 0; i < after[tag]; i++)
            do
                number = tree[at]; /* a child count has one byte */
            while (tree[at++] >= 0x80);
        owed += tag == 2 || tag == 3 ? number - 1 : (uint64_t)-1;
        ends += tag > 3;
    }
    *len = at;
    return ends;
}

static Said trim(const uint8_t *bytes, size_t len, uint32_t ration, size_t room) {
    Said said = {0};
    uint8_t *tree = lend(TREE, bytes, len), *out = lend(OUT, NULL, room);
    uint64_t *report = lend(REPORT, NULL, 32);
    said.answer = travelring_trim(tree, len, ration, out, room, report);
    said.place = report[0], said.one = report[1], said.two = report[2];
    must(memcmp(tree, bytes, len) == 0);
    if (said.answer == TRAVELRING_FINISHED || said.answer == TRAVELRING_STOPPED) {
        must(said.place == 0 && said.one <= ration && (said.answer == TRAVELRING_FINISHED || said.one == ration));
        must(ends_of(out, &said.len) == said.two && said.len == report[3]);
        must(said.len <= room && said.len <= len && said.one <= TRAVELRING_QUESTIONS);
        memcpy(said.bytes, out, said.len);
    } else {
        must(said.one == 0 && said.two == 0 && report[3] == 0);
        must(said.answer == TRAVELRING_LONG || travelring_of_reading(said.answer));
        int within = said.answer == TRAVELRING_LONG ? room < said.place && said.place <= TRAVELRING_LONGEST : said.place < len;
        must(said.answer == TRAVELRING_ENDED ? said.place == len : within);
    }
    must(kept(out, said.len, room));
    take_back(tree, len), take_back(out, room), free(report);
    return said;
}

static Said judge(const uint8_t *bytes, size_t len, uint32_t flags, const travelring_whole *assigned, size_t count) {
    Said said = {0};
    size_t size = sizeof(travelring_whole) * count;
    uint8_t *tree = lend(TREE, bytes, len);
    travelring_whole *numbers = lend(NUMBERS, assigned, size);
    uint64_t *report = lend(REPORT, NULL, 16);
    said.answer = travelring_judge(tree, len, flags, numbers, count, report);
    said.place = report[0], said.one = report[1];
    must(said.one <= (said.answer == TRAVELRING_FINISHED) && memcmp(tree, bytes, len) == 0 && memcmp(numbers, assigned, size) == 0);
    take_back(tree, len), take_back(numbers, size), free(report);
    return said;
}

static Said find(const uint8_t *bytes, size_t len, size_t count) {
    Said said = {0};
    size_t size = sizeof(travelring_whole) * count;
    uint8_t *tree = lend(TREE, bytes, len);
    travelring_whole *numbers = lend(NUMBERS, NULL, size);
    uint64_t *report = lend(REPORT, NULL, 16);
    said.answer = travelring_find(tree, len, numbers, count, report);
    said.place = report[0], said.one = report[1];
    must(memcmp(tree, bytes, len) == 0 && said.one <= UINT32_MAX);
    if (said.answer == TRAVELRING_FINISHED) {
        for (size_t i = 0; i < count; i++)
            must(numbers[i] >= -TRAVELRING_FARTHEST && numbers[i] <= TRAVELRING_FARTHEST);
        memcpy(said.bytes, numbers, size);
    } else
        must(said.one == 0 && kept(numbers, 0, size));
    take_back(tree, len), take_back(numbers, size), free(report);
    return said;
}

/* What ties the answers of one tree together, when it reads. */
static void check_tree(const uint8_t *tree, size_t len, Said trimmed, size_t room, uint32_t ration, uint32_t flags,
                       const travelring_whole *numbers) {
    Said full = trim(tree, len, UINT32_MAX, TRAVELRING_LONGEST);
    size_t whole;
    uint64_t ends = ends_of(tree, &whole);
    must(full.answer == TRAVELRING_FINISHED && whole == len && full.two <= ends && full.one <= ends * (ends + 1));
    if (trimmed.answer == TRAVELRING_LONG) { /* the room it asks for is enough, and one less is not */
        Said fits = trim(tree, len, ration, trimmed.place);
        must(fits.len == trimmed.place && room < fits.len && trim(tree, len, ration, fits.len - 1).answer == TRAVELRING_LONG);
        trimmed = fits;
    }
    must((trimmed.answer == TRAVELRING_FINISHED) == (full.one <= ration) && trimmed.one == (full.one <= ration ? full.one : ration));
    /* a finished tree stays; a stopped one goes on to the same */
    Said again = trim(trimmed.bytes, trimmed.len, UINT32_MAX, TRAVELRING_LONGEST);
    must(again.answer == TRAVELRING_FINISHED && again.len == full.len && memcmp(again.bytes, full.bytes, full.len) == 0);
    must(trimmed.answer != TRAVELRING_FINISHED || (trimmed.len == full.len && again.one == 2 * full.two));

    Said before = judge(tree, len, flags, numbers, TRAVELRING_NUMBERS);
    Said after = judge(trimmed.bytes, trimmed.len, flags, numbers, TRAVELRING_NUMBERS);
    must(before.answer == TRAVELRING_FINISHED && after.answer == TRAVELRING_FINISHED && before.one == after.one);
    int plain = full.len == 1 ? full.bytes[0] : 2; /* false exactly if nothing satisfies the tree, true exactly if all does */
    must(plain == 2 || before.one == (uint64_t)plain);

    Said found = find(tree, len, TRAVELRING_NUMBERS);
    travelring_whole shown[TRAVELRING_NUMBERS];
    memcpy(shown, found.bytes, sizeof shown);
    must(found.answer == (plain == 0 ? TRAVELRING_NOTHING : TRAVELRING_FINISHED) && found.place == 0);
    must(plain == 0 || judge(tree, len, (uint32_t)found.one, shown, TRAVELRING_NUMBERS).one == 1);
}

/* One byte says one number: a small one, or one of three larger sizes up to the ends of 32 bits. */
static travelring_whole number_of(uint8_t b) {
    static const travelring_whole sizes[] = {1, 31250, 1000000, 67108864};
    return ((b & 63) - 32) * sizes[b >> 6];
}

int LLVMFuzzerTestOneInput(const uint8_t *input, size_t size) {
    if (size < HEADER)
        return 0;
    const uint8_t *tree = input + HEADER;
    size_t len = size - HEADER, room = input[0], count = input[1] < 32 ? input[1] : TRAVELRING_NUMBERS;
    uint32_t ration = (input[2] | input[3] << 8) & 1023, flags;
    if (ration == 1023)
        ration = UINT32_MAX;
    memcpy(&flags, input + 4, 4);
    travelring_whole numbers[32] = {0};
    for (int i = 0; i < TRAVELRING_NUMBERS; i++)
        numbers[i] = number_of(input[8 + i]);

    Said trimmed = trim(tree, len, ration, room), judged = judge(tree, len, flags, numbers, count), found = find(tree, len, count);
    int reads = !travelring_of_reading(trimmed.answer);
    if (count != TRAVELRING_NUMBERS) /* 11 comes first */
        must(judged.answer == TRAVELRING_UNFIT && found.answer == TRAVELRING_UNFIT && judged.place == 0 && found.place == 0);
    else if (!reads)
        must(judged.answer == trimmed.answer && found.answer == trimmed.answer && judged.place == trimmed.place && found.place == trimmed.place);
    if (reads)
        check_tree(tree, len, trimmed, room, ration, flags, numbers);
    return 0;
}
