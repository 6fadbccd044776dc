/* The edges of the C boundary: lengths of 0, NULL with a length of 0, rooms beside the result's, assignments of 14 and 16 numbers, every
 * refusal. Each buffer lies between guard bytes; what an answer may not write must hold what it held. Prints the calls made, or the first
 * that is wrong. */
#include "travelring.h"
#include <stdalign.h>
#include <stdio.h>
#include <stdlib.h>
#include <string.h>

enum { GUARD = 64, MOST = 512 };

/* A lent buffer with guard bytes on both sides; all of it is preset, each byte by its place. */
typedef struct {
    alignas(8) uint8_t all[GUARD + MOST + GUARD];
} Lent;

static uint8_t preset(size_t i) { return (uint8_t)(0xa5 ^ (7 * i)); }

static void *lend(Lent *lent) {
    for (size_t i = 0; i < sizeof lent->all; i++)
        lent->all[i] = preset(i);
    return lent->all + GUARD;
}

/* Whether all but the first `written` bytes hold what they held. */
static int kept(const Lent *lent, size_t written) {
    for (size_t i = 0; i < sizeof lent->all; i++)
        if ((i < GUARD || i >= GUARD + written) && lent->all[i] != preset(i))
            return 0;
    return 1;
}

static Lent tree_lent, other_lent, report_lent;
static const char *doing;
static int calls;

static void must(int so, const char *what) {
    if (!so) {
        printf("wrong: %s: %s\n", doing, what);
        exit(1);
    }
}

/* Bytes typed in hex with spaces between; lent. */
static uint8_t *typed(const char *hex, size_t *len) {
    uint8_t *bytes = lend(&tree_lent);
    doing = hex;
    for (*len = 0; *hex; hex += hex[2] ? 3 : 2)
        bytes[(*len)++] = (uint8_t)strtoul(hex, NULL, 16);
    calls++;
    return bytes;
}

static int same(const char *hex, const uint8_t *bytes) {
    size_t i = 0;
    for (; *hex; hex += hex[2] ? 3 : 2, i++)
        if (bytes[i] != strtoul(hex, NULL, 16))
            return 0;
    return 1;
}

/* result: NULL in a refusal */
static void trim(const char *hex, uint32_t ration, size_t room, uint32_t answer, uint64_t place, uint64_t questions, uint64_t ends,
                 const char *result) {
    size_t len, written = result ? (strlen(result) + 1) / 3 : 0;
    uint8_t *tree = typed(hex, &len), *out = lend(&other_lent);
    uint64_t *report = lend(&report_lent);
    must(travelring_trim(tree, len, ration, out, room, report) == answer, "trim's answer");
    must(report[0] == place && report[1] == questions && report[2] == ends && report[3] == written, "trim's report");
    must(kept(&report_lent, 32) && kept(&other_lent, written), "trim wrote where it may not");
    must(same(hex, tree) && kept(&tree_lent, len), "trim changed the tree");
    must(!result || same(result, out), "trim's result");
}

static uint64_t judge(const char *hex, uint32_t flags, size_t count, uint32_t answer, uint64_t place) {
    size_t len;
    uint8_t *tree = typed(hex, &len);
    travelring_whole *numbers = lend(&other_lent);
    uint64_t *report = lend(&report_lent);
    must(travelring_judge(tree, len, flags, numbers, count, report) == answer, "judge's answer");
    must(report[0] == place && report[1] <= (answer == TRAVELRING_FINISHED), "judge's report");
    must(kept(&report_lent, 16) && kept(&other_lent, 0), "judge wrote where it may not");
    must(same(hex, tree) && kept(&tree_lent, len), "judge changed the tree");
    return report[1];
}

static void find(const char *hex, size_t count, uint32_t answer, uint64_t place) {
    size_t len, written = answer == TRAVELRING_FINISHED ? sizeof(travelring_whole) * TRAVELRING_NUMBERS : 0;
    uint8_t *tree = typed(hex, &len);
    travelring_whole *numbers = lend(&other_lent);
    uint64_t *report = lend(&report_lent), value[2] = {2, 2};
    must(travelring_find(tree, len, numbers, count, report) == answer, "find's answer");
    must(report[0] == place && (answer == TRAVELRING_FINISHED ? report[1] <= UINT32_MAX : report[1] == 0), "find's report");
    must(kept(&report_lent, 16) && kept(&other_lent, written), "find wrote where it may not");
    must(same(hex, tree) && kept(&tree_lent, len), "find changed the tree");
    if (answer == TRAVELRING_FINISHED) {
        for (int i = 0; i < TRAVELRING_NUMBERS; i++)
            must(numbers[i] >= -TRAVELRING_FARTHEST && numbers[i] <= TRAVELRING_FARTHEST, "a number that find wrote");
        travelring_judge(tree, len, (uint32_t)report[1], numbers, count, value);
        must(value[1] == 1, "find's assignment");
    }
}

/* Whether a call refused as wanted and reported the place, then zeros, `many` numbers in all. The report is preset for the next call. */
static int refused(uint32_t answer, const uint64_t *report, uint32_t wanted, uint64_t place, size_t many) {
    int so = answer == wanted && report[0] == place && kept(&report_lent, 8 * many);
    for (size_t i = 1; i < many; i++)
        so = so && report[i] == 0;
    lend(&report_lent);
    return so;
}

/* NULL for each run of length 0, alone and all at once. 11 and then 1 come before what another run would give. */
static void nothing_lent(void) {
    size_t len;
    uint8_t *tree = typed("04 00", &len), *out = lend(&other_lent);
    travelring_whole numbers[TRAVELRING_NUMBERS] = {0};
    uint64_t *r = lend(&report_lent);
    must(refused(travelring_trim(NULL, 0, TRAVELRING_QUESTIONS, out, MOST, r), r, 1, 0, 4), "trim of NULL");
    must(refused(travelring_trim(tree, len, TRAVELRING_QUESTIONS, NULL, 0, r), r, 9, 2, 4), "trim into NULL");
    must(refused(travelring_trim(NULL, 0, TRAVELRING_QUESTIONS, NULL, 0, r), r, 1, 0, 4), "trim of NULL into NULL");
    must(refused(travelring_judge(NULL, 0, 0, numbers, TRAVELRING_NUMBERS, r), r, 1, 0, 2), "judge of NULL");
    must(refused(travelring_judge(tree, len, 0, NULL, 0, r), r, 11, 0, 2), "judge under NULL");
    must(refused(travelring_judge(NULL, 0, 0, NULL, 0, r), r, 11, 0, 2), "judge of NULL under NULL");
    must(refused(travelring_find(NULL, 0, numbers, TRAVELRING_NUMBERS, r), r, 1, 0, 2), "find of NULL");
    must(refused(travelring_find(tree, len, NULL, 0, r), r, 11, 0, 2), "find into NULL");
    must(refused(travelring_find(NULL, 0, NULL, 0, r), r, 11, 0, 2), "find of NULL into NULL");
    must(kept(&other_lent, 0) && kept(&tree_lent, len), "a call without a buffer wrote another");
    for (int i = 0; i < TRAVELRING_NUMBERS; i++)
        must(numbers[i] == 0, "find of NULL wrote a number");
    calls += 8; /* typed counted one of the nine */
}

/* Document 01's refused strings; each is refused by all three, and by trim without regard to ration and room. */
static const struct {
    const char *hex;
    uint32_t answer;
    uint64_t place;
} REFUSED[] = {
    {"", 1, 0},      {"02 02 04", 1, 3}, {"80 00", 2, 0},       {"80 80 80", 2, 0},    {"08", 3, 0},                {"02 01", 4, 1},
    {"02 00", 4, 1}, {"04 20", 5, 1},    {"06 10 00 00", 5, 1}, {"06 00 10 00", 5, 2}, {"06 01 00 81 89 7a", 6, 3}, {"06 01 00 80 89 fa", 2, 3},
    {"02 19", 7, 0}, {"02 18", 1, 2},    {"04 00 00", 8, 2},    {"04 80", 1, 2},
};

int main(void) {
    for (size_t i = 0; i < sizeof REFUSED / sizeof *REFUSED; i++) {
        const char *hex = REFUSED[i].hex;
        for (uint32_t ration = 0; ration <= TRAVELRING_QUESTIONS; ration += TRAVELRING_QUESTIONS / 2)
            for (size_t room = 0; room <= TRAVELRING_LONGEST; room += TRAVELRING_LONGEST)
                trim(hex, ration, room, REFUSED[i].answer, REFUSED[i].place, 0, 0, NULL);
        judge(hex, 0, TRAVELRING_NUMBERS, REFUSED[i].answer, REFUSED[i].place);
        find(hex, TRAVELRING_NUMBERS, REFUSED[i].answer, REFUSED[i].place);
        for (size_t count = 0; count <= TRAVELRING_NUMBERS + 2; count++) /* 11 comes first */
            if (count != TRAVELRING_NUMBERS) {
                judge(hex, UINT32_MAX, count, 11, 0);
                find(hex, count, 11, 0);
            }
    }

    const char *tree_8 = "02 02 06 01 00 0a 03 02 06 01 00 06 07 01 00 0a", *left_8 = "06 01 00 06";
    for (size_t room = 0; room <= MOST; room++) {
        trim("01", 0, room, room < 1 ? 9 : 0, room < 1, 0, 0, room < 1 ? NULL : "01");
        trim("04 00", 1, room, room < 2 ? 9 : 10, room < 2 ? 2 : 0, room >= 2, room >= 2, room < 2 ? NULL : "04 00");
        trim(tree_8, TRAVELRING_QUESTIONS, room, room < 4 ? 9 : 0, room < 4 ? 4 : 0, room < 4 ? 0 : 9, room >= 4, room < 4 ? NULL : left_8);
    }
    trim(tree_8, 0, TRAVELRING_LONGEST, 10, 0, 0, 3, tree_8);
    trim(tree_8, 6, TRAVELRING_LONGEST, 10, 0, 6, 2, "02 02 06 01 00 0a 06 01 00 06");
    trim(tree_8, 8, TRAVELRING_LONGEST, 10, 0, 8, 1, left_8);
    trim(tree_8, 9, TRAVELRING_LONGEST, 0, 0, 9, 1, left_8);
    trim(tree_8, UINT32_MAX, TRAVELRING_LONGEST, 0, 0, 9, 1, left_8);

    for (uint32_t p = 0; p < 32; p++) { /* boolean p is the bit of weight 2^p */
        char hex[] = "04 00";
        snprintf(hex + 3, 3, "%02x", (unsigned)p);
        uint32_t flag = UINT32_C(1) << p;
        must(judge(hex, flag, TRAVELRING_NUMBERS, 0, 0) == 1 && judge(hex, ~flag, TRAVELRING_NUMBERS, 0, 0) == 0, "a boolean bit");
        find(hex, TRAVELRING_NUMBERS, 0, 0);
    }
    for (int x = 1; x <= TRAVELRING_NUMBERS; x++) { /* number x is at index x - 1; this also tells which of two names is the first */
        uint8_t at_most[] = {6, (uint8_t)x, 0, 10}, at_least[] = {6, 0, (uint8_t)x, 10}; /* x <= 5; -x <= 5 */
        travelring_whole numbers[TRAVELRING_NUMBERS] = {0};
        uint64_t one[2], two[2];
        numbers[x - 1] = 6;
        travelring_judge(at_most, 4, 0, numbers, TRAVELRING_NUMBERS, one);
        travelring_judge(at_least, 4, 0, numbers, TRAVELRING_NUMBERS, two);
        must(one[1] == 0 && two[1] == 1, "a number's index");
        calls += 2;
    }
    find("00", TRAVELRING_NUMBERS, 12, 0);
    find("02 02 04 00 05 00", TRAVELRING_NUMBERS, 12, 0);
    find(tree_8, TRAVELRING_NUMBERS, 0, 0);
    nothing_lent();
    printf("edges: %d calls, none wrong\n", calls);
    return 0;
}
