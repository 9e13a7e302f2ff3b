/* Yakkurem: proved planning of a station's day. Link with libstation.a (docs/station.md).
 *
 * A day has n periods, numbered from 1. Six tables hold one entry for each: need and capacity in watt-hours, start cost,
 * unit cost and upkeep in microlitres, and store, the most charge in watt-hours that may be left after the period. Two
 * numbers say with how much charge the day begins (opening) and how much it is to hand on (closing). A plan is one whole
 * amount for each period. The charge left after a period is opening + what was made so far - what was needed so far. A plan
 * holds if no amount is above its period's capacity, the charge left after every period is at least 0 and at most the
 * period's store, and after the last period it is closing. It costs, for each period, nothing for making if the amount is
 * 0, else start + unit * amount; and upkeep * (the charge before the period + the charge left), so upkeep is per half
 * period. The charge before period 1 is opening; no store limits it.
 *
 * Every slice is passed as a pointer and the number of its elements. What a caller must see to, and nothing else: a pointer
 * is not NULL (also with length 0), is aligned for its elements, and leads to as many as are said; and what a call may
 * write (work areas, slots, tables to fill, bytes to write, the out-array: all that is not const) overlaps nothing else that
 * it is passed. What it only reads may overlap. Any contents and any lengths are answered.
 *
 * Limits: n is 1 to 96; need at most 4096, in one period and, with closing, over the day, but for yakkurem_big, where over the
 * day it is 60000; start at most 1000000000; unit at most 1000000; upkeep at most 500000. Opening and closing have no limit of
 * their own. A store of 65535 stands for none: no plan that holds leaves so much.
 *
 * Every call but yakkurem_price returns a code:
 *     0                                   accepted
 *     number + 256 * period               refused: the number is 1 to 20, the period 0 where none is named
 *     101 to 104 + 256 * period           a plan to weigh or to play breaks a rule: above capacity (101), short (102), charge
 *                                         over at the end (103), above store (104)
 *
 * Refusals, of which the first in a call's order is given:
 *      1  n is 0 or above 96
 *      2  a table is not as long as need
 *      3  a value above its limit, in this period
 *      4  need over the day + closing is above 4096 (yakkurem_big: above 60000)
 *      5  a work area is too short
 *      6  too few slots, table cells or bytes
 *      7  there is no plan: this is the first period for which no amounts up to it keep the rules through it, the one on
 *         closing in period n
 *      8  capacities differ (yakkurem_equal)
 *      9  a capacity may bind, in this period (yakkurem_uncapped)
 *     10  a kind byte of the file is not 1 to 5
 *     11  the file ends inside a record or before the end record
 *     12  the end record's count is wrong, or bytes follow it; or a record of kind 5 is not the file's first; or one of kind 3 is
 *         neither the first nor next after a first one of kind 5, or holds two zeros; or one of kind 4 holds a store of 65535
 *     13  the asked-for period is 0 or above n
 *     14  opening is above need over the day + closing: charge would be over at the end, whatever is made
 *     15  a start cost above 0, in this period (yakkurem_free)
 *     16  a store below need over the day + closing, in this period (yakkurem_uncapped, yakkurem_equal, yakkurem_free,
 *         yakkurem_big)
 *     17  opening is above 0 (yakkurem_bounds)
 *     18  a lowest need above its highest, in this period (yakkurem_bounds)
 *     19  no trial is allowed (yakkurem_big)
 *     20  the file has no record of kind 5, or another station or day in it than expected (yakkurem_read)
 *
 * On any code but 0 nothing that was lent changes, and the out-array (the last parameter) is not written.
 * The calls keep no state and use no heap, no file and no clock. Of the C library they use memset and memcpy alone.
 */
#ifndef YAKKUREM_H
#define YAKKUREM_H

#include <stddef.h>
#include <stdint.h>

#ifdef __cplusplus
extern "C" {
#endif

/* The parts of a code. */
#define YAKKUREM_NUMBER(code) ((unsigned)((code) % 256))
#define YAKKUREM_PERIOD(code) ((unsigned)((code) / 256))

#define YAKKUREM_DAY                                                                                                       \
    const uint16_t *need, size_t needs, const uint16_t *capacity, size_t capacities, const uint32_t *start, size_t starts, \
        const uint32_t *unit, size_t units, const uint32_t *upkeep, size_t upkeeps, const uint16_t *store, size_t stores,  \
        uint16_t opening, uint16_t closing

#define YAKKUREM_MEMORY uint64_t *cost_area, size_t cost_cells, uint16_t *choice_area, size_t choice_cells, uint16_t *slots, size_t slot_count

/* The four paths give the same plan: of those that hold the cheapest, and of equally cheap ones that with the smaller
 * amount in the last period where they differ. Accepted, the first n slots hold it, answer holds its cost and its starts
 * (the number of amounts above 0), and the needed cells of the areas hold 0; later cells and slots keep their contents.
 * Refusals in order: 1, 2, 3, 4, 14, 5, 6, 7, then the path's own, then for all but yakkurem_full 16.
 *
 *     path                   cost area      choice area              for days with
 *     yakkurem_full          2 * (T + 1)    n * (T + 1)              any capacities and stores
 *     yakkurem_uncapped      n + 1          n + 1                    capacities that can't bind (9), no low store (16)
 *     yakkurem_equal         6 * (n + 1)    4 * (n + 1) * (n + 1)    one capacity throughout (8), no low store (16)
 *     yakkurem_free          n              takes none               any capacities, no start cost (15), no low store (16)
 *
 * T is what a plan makes in all: need over the day + closing - opening. A capacity can't bind if it is at least T less what
 * the periods before it need beyond opening (0 where opening covers them). Areas of 8194 and 393312 cells serve the full
 * path on any day, 582 and 37636 the uncapped and the equal one, and a cost area of 96 the free one. yakkurem_free plans
 * like the others, for free starts; it releases nothing.
 *
 * The answer of yakkurem_equal has two numbers more, after cost and starts: the plan's full-load periods, which make the
 * capacity c, and its part-loaded ones, which make something and less than c. Both are 0 where c is 0. A run is a stretch of
 * periods between two moments with empty store, the charge being above 0 in between; it also begins and ends with the day.
 * Where c is above 0 and a run makes W in all, exactly W / c of its periods, rounded down, make c, and exactly one is
 * part-loaded if W % c is above 0, none if it is 0. So the two numbers are the sums of these over the runs. */
uint64_t yakkurem_full(YAKKUREM_DAY, YAKKUREM_MEMORY, uint64_t answer[2]);
uint64_t yakkurem_uncapped(YAKKUREM_DAY, YAKKUREM_MEMORY, uint64_t answer[2]);
uint64_t yakkurem_equal(YAKKUREM_DAY, YAKKUREM_MEMORY, uint64_t answer[4]);
uint64_t yakkurem_free(YAKKUREM_DAY, uint64_t *cost_area, size_t cost_cells, uint16_t *slots, size_t slot_count, uint64_t answer[2]);

/* Needs known as ranges, a lowest and a highest for each period: the need table of the day is the highest. The day begins with
 * no charge. Accepted, answer holds the least cost of the day with the lowest needs, then with the highest: what its plan
 * costs, as yakkurem_full gives it. Whatever the needs turn out to be between the two, period by period, the day has a plan,
 * and its least cost lies between those given. No slots are lent. The areas are those of yakkurem_full for the highest needs,
 * 2 * (T + 1) and n * (T + 1) cells, which hold 0 after an accepted call; later cells keep their contents. Refusals in order:
 * 1, 2, 3, 4, 14, 5, 17, 18, 7; 2 and 3 of the lowest needs too (3 names the first period in which any value is above its
 * limit), 1, 4, 14, 5 and 7 of the highest. */
uint64_t yakkurem_bounds(
    const uint16_t *lowest, size_t lowests, YAKKUREM_DAY, uint64_t *cost_area, size_t cost_cells, uint16_t *choice_area,
    size_t choice_cells, uint64_t answer[2]);

/* The best plan that so many trials find, for a big day: with closing it may need 60000. Trial 1 plans with all starts taken as
 * free. Each further trial forbids one more period, in which then nothing is made, from n down to 1 and round again; it stays
 * forbidden exactly if there is a plan and it costs less than the best so far, starts included. A period that is forbidden
 * already is passed over. The call stops after a round from n down to 1 that forbids none, or when the allowed trials are used
 * up; SIZE_MAX allows as many as the day can use. Accepted, the first n slots hold the best plan, and answer holds its cost, its
 * starts, the trials used (the first counts, and so does one that finds no plan) and the gap: its cost less the least cost of
 * the day with all starts free. No plan is cheaper than its cost less the gap, and more trials never give a dearer one. The
 * needed cells of the cost area, 3 * n, hold 0; later cells and slots keep their contents. An area of 288 serves any day; there
 * is no choice area. Refusals in order: 1, 2, 3, 4, 14, 5, 6, 7, 16, 19. */
uint64_t yakkurem_big(
    YAKKUREM_DAY, size_t trials, uint64_t *cost_area, size_t cost_cells, uint16_t *slots, size_t slot_count, uint64_t answer[4]);

/* Weighs somebody's plan. Accepted, it holds, and answer holds its cost and its starts. Else the first period that breaks
 * a rule and which: in one period "above capacity" before "short", that before "above store", that before "charge over". In
 * period n it is short below closing, and charge is over above it. Refusals in order: 1, 2, 3, 4, 14, 6. Amounts past n are
 * not read. */
uint64_t yakkurem_weigh(YAKKUREM_DAY, const uint16_t *plan, size_t amounts, uint64_t answer[2]);

/* Weighs two plans. Accepted, both hold, and difference is the first one's cost less the second's: below 0 where the first
 * is cheaper. Where one breaks a rule its verdict is given, the first one's if both do. Refusals as yakkurem_weigh. */
uint64_t yakkurem_compare(
    YAKKUREM_DAY, const uint16_t *first, size_t first_amounts, const uint16_t *second, size_t second_amounts, int64_t difference[1]);

/* Plays somebody's plan through, against a table of actual needs in place of those that it was made for. In each period the cell
 * makes its amount; the actual need is delivered as far as charge reaches, and the rest of it is missed; then charge above store
 * is spilled. Accepted, the plan holds, and answer holds what was made, delivered, missed and spilled over the day, and the charge
 * left after period n: opening + made = delivered + spilled + left, and delivered + missed = the actual needs over the day. A plan
 * that breaks a rule is not played, and gets its verdict as from yakkurem_weigh, on the day's own needs. An actual need is at most
 * 4096; over the day they have no limit, for 4, 14 and the rules of a plan are on the day's own. Refusals in order: 1, 2, 3, 4, 14,
 * 6; 2 and 3 of the actual needs too (3 names the first period in which any value is above its limit). Amounts past n are not
 * read. */
uint64_t yakkurem_play(
    YAKKUREM_DAY, const uint16_t *plan, size_t amounts, const uint16_t *actual, size_t actuals, uint64_t answer[5]);

/* Reads a day file that is for the expected station and day. Its records, most significant byte first: one of 5 bytes (kind 5,
 * then station 2, day number 2 bytes; a day number counts days since 1 January 2000); exactly if opening or closing is above 0,
 * one of 5 (kind 3, then opening 2, closing 2); then period records, of 17 bytes (kind 1, then need 2, capacity 2, start 4, unit
 * 4, upkeep 4 bytes) where store is 65535, else of 19 (kind 4, then the same and store 2 bytes); then an end record of 3 (kind 2,
 * count of period records 2). expected holds two numbers, station and day number; with any other length of it no file is as
 * expected. Accepted, the first n cells of the six tables hold the day, later ones keep their contents, and day holds n, opening
 * and closing. Refusals: the first fault from front to back of 10, 11, 12; then in order 20, 1, 6, 3. A file that
 * lacks kind 5 may be without a fault, and is then refused 20. */
uint64_t yakkurem_read(
    const uint8_t *file, size_t bytes, const uint16_t *expected, size_t numbers, uint16_t *need, size_t needs, uint16_t *capacity,
    size_t capacities, uint32_t *start, size_t starts, uint32_t *unit, size_t units, uint32_t *upkeep, size_t upkeeps, uint16_t *store,
    size_t stores, uint64_t day[3]);

/* Finds the body of the numbered period record of a day file, for whichever station and day it is, also of one without kind 5:
 * part holds where it begins in file, counted from 0, and its length, 16 or for kind 4 18. No byte is copied: the body is
 * file + part[0]. Refusals as yakkurem_read up to 12; then in order 1, 13. */
uint64_t yakkurem_lookup(const uint8_t *file, size_t bytes, size_t period, uint64_t part[2]);

/* Writes the day file, for this station and day, at the front of out: 17 * n + 8 bytes, 2 more for each store below 65535, and 5
 * more if opening or closing is above 0, so at most 1837; count is how many. Any two numbers are written as they are. Later bytes
 * keep their contents. Refusals in order: 1, 2, 3, 6. */
uint64_t yakkurem_write(YAKKUREM_DAY, uint16_t station, uint16_t day_number, uint8_t *out, size_t bytes, uint64_t count[1]);

/* Draws a test load: a made-up day of n periods that anyone can draw again from its seed. Each draw sets the seed to
 * (1664525 * seed + 1013904223) modulo 4294967296 and takes its upper 16 bits; per period five draws, in order need modulo
 * 41, capacity modulo 61, start modulo 30001, unit modulo 1201, upkeep modulo 21. With seed 0 the first need is 13. Accepted,
 * the first n cells of the tables hold what was drawn, with stores of 65535, and later cells keep their contents; opening and closing
 * of the day are 0. There is no out-array. Refusals in order: 1, 6. Such a day is within all limits, but need not have a plan. */
uint64_t yakkurem_test_load(
    uint32_t seed, size_t n, uint16_t *need, size_t needs, uint16_t *capacity, size_t capacities, uint32_t *start, size_t starts,
    uint32_t *unit, size_t units, uint32_t *upkeep, size_t upkeeps, uint16_t *store, size_t stores);

/* What the depot charges for a cost in microlitres, in cents: whole cans of 5 litres, of which cans 1 to 4 cost 2350 each, 5 to
 * 12 cost 2190, 13 to 40 cost 2060 and later ones 1980; and freight of 75 per 1000 of that sum, to the nearest cent, halves
 * up. It takes any cost, and refuses none: what it returns is the price, and no code. Plans are chosen by fuel alone. */
uint64_t yakkurem_price(uint64_t cost);

#undef YAKKUREM_DAY
#undef YAKKUREM_MEMORY

#ifdef __cplusplus
}
#endif

#endif
