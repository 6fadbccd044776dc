/* Trims one condition and says the answer in words: example [HEX..]; with no bytes, tree 8 of docs/CONDITIONS.md. */
#include "travelring.h"
#include <inttypes.h>
#include <stdio.h>
#include <stdlib.h>

static const uint8_t TREE_8[] = {2, 2, 6, 1, 0, 10, 3, 2, 6, 1, 0, 6, 7, 1, 0, 10}; /* x <= 5 and (x <= 3 or not x <= 5) */

static const char *words(uint32_t answer) {
    switch (answer) {
    case TRAVELRING_FINISHED: return "Trimmed: no end is left that could go.";
    case TRAVELRING_ENDED: return "Refused: the condition breaks off before it is complete.";
    case TRAVELRING_FORM: return "Refused: a number is too long, or padded.";
    case TRAVELRING_TAG: return "Refused: there is no such kind of node; tags go from 0 to 7.";
    case TRAVELRING_COUNT: return "Refused: an `and` or `or` has fewer than two children.";
    case TRAVELRING_NAME: return "Refused: no such name; booleans go to 31, numbers to 15.";
    case TRAVELRING_BOUND: return "Refused: a bound goes from -1,000,000 to 1,000,000.";
    case TRAVELRING_CROWD: return "Refused: the condition has more than 24 ends.";
    case TRAVELRING_AFTER: return "Refused: there are bytes after the condition.";
    case TRAVELRING_LONG: return "Not written: there is too little room; the place says how many bytes it takes.";
    case TRAVELRING_STOPPED: return "Stopped: the ration is used up; this is what was reached, and more might go.";
    default: return "Trim gives no such answer."; /* 11 and 12 are for judge and find */
    }
}

int main(int argc, char **argv) {
    uint8_t tree[256], out[TRAVELRING_LONGEST];
    uint64_t report[4];
    size_t len = 0;
    for (int i = 1; i < argc && len < sizeof tree; i++)
        tree[len++] = (uint8_t)strtoul(argv[i], NULL, 16);

    uint32_t answer = argc > 1 ? travelring_trim(tree, len, TRAVELRING_QUESTIONS, out, sizeof out, report)
                               : travelring_trim(TREE_8, sizeof TREE_8, TRAVELRING_QUESTIONS, out, sizeof out, report);

    printf("%s\n", words(answer));
    if (answer != TRAVELRING_FINISHED && answer != TRAVELRING_STOPPED) {
        printf("Answer %" PRIu32 ", place %" PRIu64 ".\n", answer, report[0]);
        return 1;
    }
    printf("Questions asked: %" PRIu64 ". Ends left: %" PRIu64 ". The condition now:", report[1], report[2]);
    for (size_t i = 0; i < report[3]; i++)
        printf(" %02x", out[i]);
    printf("\n");
    return 0;
}
