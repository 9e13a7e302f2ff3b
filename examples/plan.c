/* Plans a day with needs 2 and 3 that begins with a charge of 1 and hands on 1, and prints what is made in each period: by the full path;
 * with a battery that holds 2; on mains, where no start costs anything, by the free path; and by the equal path with a cell that makes 3 at
 * most, which also counts the periods in which it makes 3, and those in which it makes less. Then it says between which costs the
 * least cost lies of such a day that begins with nothing and may need less, plans a day of a polar site, which needs more than these calls
 * take, as well as nine trials can, plays the plan of the small battery against needs of 4 and 1, writes the first day's file for station 17
 * and 16 November 2026 (day 9816 since 1 January 2000), reads it for that day and for the next, which refuses it, draws the needs of a test
 * load, and says what the depot charges for a cost. */
#include <stdio.h>
#include "yakkurem.h"

static int show(uint64_t code, const uint64_t answer[2], const uint16_t made[2]) {
    if (code != 0) printf("refused %u period %u\n", YAKKUREM_NUMBER(code), YAKKUREM_PERIOD(code));
    else printf("cost %u starts %u made %u %u\n", (unsigned)answer[0], (unsigned)answer[1], made[0], made[1]);
    return code != 0;
}

int main(void) {
    uint16_t need[] = {2, 3}, lowest[] = {1, 1}, capacity[] = {5, 5}, three[] = {3, 3}, store[] = {65535, 65535}, small[] = {2, 2};
    uint16_t polar[] = {4000, 400}, large[] = {4500, 4500}, plan[] = {1, 4}, actual[] = {4, 1}, made[2], choices[36];
    uint32_t start[] = {10, 10}, dear[] = {9000, 9000}, none[] = {0, 0}, unit[] = {1, 1}, upkeep[] = {1, 1};
    uint64_t costs[18], answer[5];
    uint16_t opening = 1, closing = 1, expected[] = {17, 9816};
    uint8_t file[47]; /* 17 x 2 + 8, and 5 for the charge at both ends */
    uint64_t code = yakkurem_full(
        need, 2, capacity, 2, start, 2, unit, 2, upkeep, 2, store, 2, opening, closing, costs, 12, choices, 12, made, 2, answer);
    int refused = show(code, answer, made);
    code = yakkurem_full(
        need, 2, capacity, 2, start, 2, unit, 2, upkeep, 2, small, 2, opening, closing, costs, 12, choices, 12, made, 2, answer);
    refused |= show(code, answer, made);
    code = yakkurem_free(need, 2, capacity, 2, none, 2, unit, 2, upkeep, 2, store, 2, opening, closing, costs, 2, made, 2, answer);
    refused |= show(code, answer, made);
    code = yakkurem_equal(
        need, 2, three, 2, start, 2, unit, 2, upkeep, 2, store, 2, opening, closing, costs, 18, choices, 36, made, 2, answer);
    refused |= show(code, answer, made);
    if (code == 0) printf("full-load periods %u part-loaded %u\n", (unsigned)answer[2], (unsigned)answer[3]);
    code = yakkurem_bounds(lowest, 2, need, 2, capacity, 2, start, 2, unit, 2, upkeep, 2, store, 2, 0, closing, costs, 14, choices, 14, answer);
    if (code == 0) printf("cost %u to %u\n", (unsigned)answer[0], (unsigned)answer[1]);
    refused |= code != 0;
    code = yakkurem_big(polar, 2, large, 2, dear, 2, unit, 2, upkeep, 2, store, 2, 0, 0, 9, costs, 6, made, 2, answer);
    refused |= show(code, answer, made);
    if (code == 0) printf("trials %u, no plan below cost %u\n", (unsigned)answer[2], (unsigned)(answer[0] - answer[3]));
    code = yakkurem_play(
        need, 2, capacity, 2, start, 2, unit, 2, upkeep, 2, small, 2, opening, closing, plan, 2, actual, 2, answer);
    if (code == 0) printf("made %u delivered %u missed %u", (unsigned)answer[0], (unsigned)answer[1], (unsigned)answer[2]);
    if (code == 0) printf(" spilled %u left %u\n", (unsigned)answer[3], (unsigned)answer[4]);
    refused |= code != 0;
    code = yakkurem_write(
        need, 2, capacity, 2, start, 2, unit, 2, upkeep, 2, store, 2, opening, closing, expected[0], expected[1], file, sizeof file, answer);
    size_t bytes = code == 0 ? answer[0] : 0;
    if (code == 0) printf("file of %u bytes\n", (unsigned)bytes);
    refused |= code != 0;
    code = yakkurem_read(file, bytes, expected, 2, need, 2, capacity, 2, start, 2, unit, 2, upkeep, 2, store, 2, answer);
    if (code == 0) printf("periods %u opening %u closing %u", (unsigned)answer[0], (unsigned)answer[1], (unsigned)answer[2]);
    if (code == 0) printf(" need %u %u\n", need[0], need[1]);
    refused |= code != 0;
    expected[1]++;
    code = yakkurem_read(file, bytes, expected, 2, need, 2, capacity, 2, start, 2, unit, 2, upkeep, 2, store, 2, answer);
    printf("the next day: refused %u period %u\n", YAKKUREM_NUMBER(code), YAKKUREM_PERIOD(code));
    refused |= code != 20;
    code = yakkurem_test_load(0, 2, need, 2, capacity, 2, start, 2, unit, 2, upkeep, 2, store, 2);
    if (code == 0) printf("test load of seed 0: need %u %u\n", need[0], need[1]);
    printf("price %u\n", (unsigned)yakkurem_price(20000001));
    return refused || code != 0;
}
