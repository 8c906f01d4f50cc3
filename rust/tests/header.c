/* Each function and each refusal number of the header on a small case; the
 * exit status counts the cases that went wrong. */
#include <stdio.h>
#include <string.h>

#include "secondcoop.h"

static int wrong;

static void expect(const char *name, const uint64_t *figures,
                   const uint64_t *wanted, size_t count)
{
    if (memcmp(figures, wanted, count * sizeof *figures) != 0) {
        printf("%s\n", name);
        wrong++;
    }
}

static const uint8_t plan_a[] = {4, 4, 0, 1, 1, 0, 0, 2, 4, 0, 1, 2, 2, 0, 1, 3, 3, 0};

static void numbers(void)
{
    static const uint8_t bytes[] = {0x80, 0xC8, 0xD0, 0x07, 0xFF, 0xFF, 0xFF, 0xFF, 0x0F};
    uint64_t figures[SECONDCOOP_FIGURES];
    secondcoop_read_plan_number(bytes, sizeof bytes, 0, figures);
    expect("read_plan_number", figures, (const uint64_t[]){0, 0, SECONDCOOP_MAX_COST, 4}, 4);
    secondcoop_read_plan_number(bytes, sizeof bytes, 4, figures);
    expect("read_plan_number refuses", figures, (const uint64_t[]){1, 4, 0, 0}, 4);
    secondcoop_read_job_number(bytes, sizeof bytes, 4, figures);
    expect("read_job_number", figures, (const uint64_t[]){0, 0, UINT32_MAX, 9}, 4);
    uint8_t out[5] = {0xEE, 0xEE, 0xEE, 0xEE, 0xEE};
    secondcoop_write_plan_number(out, sizeof out, 1, SECONDCOOP_MAX_COST, figures);
    expect("write_plan_number", figures, (const uint64_t[]){0, 0, 5, 0}, 4);
    if (out[0] != 0xEE || memcmp(out + 1, bytes, 4) != 0)
        wrong++;
    secondcoop_write_plan_number(out, sizeof out, 5, 0, figures);
    expect("write_plan_number refuses", figures, (const uint64_t[]){11, 0, 0, 0}, 4);
    secondcoop_write_plan_number(out, sizeof out, 0, UINT32_C(1) << 28, figures);
    expect("write_plan_number refuses", figures, (const uint64_t[]){1, 0, 0, 0}, 4);
}

/* The house of the calls below that have no schedule. */
static uint32_t house[SECONDCOOP_HOUSE_NUMBERS], house_count;

/* The standard house; a sheet that is rejected and leaves it, one that is
 * loaded into its first numbers. */
static void houses(void)
{
    static const uint32_t standard[SECONDCOOP_HOUSE_NUMBERS] = {500, 500, 300, 300, 200, 200,
                                                                150, 150, 120, 120, 100, 100};
    static const uint32_t sheet[] = {700, 600, 700, 100}, rising[] = {100, 100, 100, 101};
    uint32_t loaded[SECONDCOOP_HOUSE_NUMBERS], count;
    memset(house, 0xEE, sizeof house);
    secondcoop_standard_house(house, &house_count);
    wrong += house_count != 2 * SECONDCOOP_STANDARD_ROUNDS;
    wrong += memcmp(house, standard, sizeof house) != 0;
    secondcoop_standard_house(loaded, &count);
    wrong += secondcoop_load_house(rising, 4, loaded, &count) != SECONDCOOP_BAD_SCHEDULE;
    wrong += secondcoop_load_house(sheet, 0, loaded, &count) != SECONDCOOP_BAD_SCHEDULE;
    wrong += count != house_count || memcmp(loaded, house, sizeof house) != 0;
    wrong += secondcoop_load_house(sheet, 4, loaded, &count) != SECONDCOOP_NOT_REFUSED;
    wrong += count != 4 || memcmp(loaded, sheet, sizeof sheet) != 0;
    wrong += memcmp(loaded + 4, house + 4, sizeof house - sizeof sheet) != 0;
}

/* A call on one place with a schedule and a house: rounds and bound, or the
 * refusal's number and 0. */
static void housed(const char *name, size_t schedule_length, size_t house_length,
                   uint64_t first, uint64_t second)
{
    static const uint8_t plan[] = {1, 0};
    static const uint32_t anchor[] = {0}, schedule[] = {300, 200}, own[] = {700, 600, 700, 100};
    uint32_t route[1], log[1], work[SECONDCOOP_WORK_WORDS(1, 0)];
    uint64_t wide[SECONDCOOP_WIDE_NUMBERS(1)], figures[SECONDCOOP_PLAN_FIGURES];
    secondcoop_plan(plan, sizeof plan, 0, 0, 0, anchor, 1, anchor, 0, 0,
                    schedule, schedule_length, own, house_length, 9, route, 1, log, 1,
                    work, sizeof work / sizeof work[0],
                    wide, sizeof wide / sizeof wide[0], figures);
    const int refused = figures[SECONDCOOP_PLAN_ENDING] == SECONDCOOP_REFUSED;
    const uint64_t given[] = {
        figures[refused ? SECONDCOOP_PLAN_REFUSAL : SECONDCOOP_PLAN_ROUNDS],
        figures[refused ? SECONDCOOP_PLAN_POSITION : SECONDCOOP_PLAN_BOUND]};
    expect(name, given, (const uint64_t[]){first, second}, 2);
}

static void calls_on_houses(void)
{
    housed("house", 0, 4, 2, 70000);
    housed("a part of the house", 0, 2, 1, 420000);
    housed("no house", 0, 0, SECONDCOOP_BAD_SCHEDULE, 0);
    housed("odd house", 0, 3, SECONDCOOP_BAD_SCHEDULE, 0);
    housed("schedule beside a house", 2, 4, 1, 60000);
    housed("schedule beside no house", 2, 0, 1, 60000);
    housed("schedule beside an odd house", 2, 3, 1, 60000);
}

static void plans(void)
{
    uint64_t figures[SECONDCOOP_FIGURES];
    uint32_t tails[4], heads[4], costs[4], classes[4];
    uint8_t out[18];
    secondcoop_check_plan(plan_a, sizeof plan_a, figures);
    expect("check_plan", figures, (const uint64_t[]){SECONDCOOP_NOT_REFUSED, 0, 4, 4}, 4);
    secondcoop_check_plan(plan_a, 17, figures);
    expect("check_plan refuses", figures, (const uint64_t[]){1, 17, 0, 0}, 4);
    secondcoop_read_plan(plan_a, sizeof plan_a, tails, 4, heads, 4, costs, 4, classes, 3,
                         figures);
    expect("read_plan refuses", figures, (const uint64_t[]){11, 0, 0, 0}, 4);
    secondcoop_read_plan(plan_a, sizeof plan_a, tails, 4, heads, 4, costs, 4, classes, 4,
                         figures);
    expect("read_plan", figures, (const uint64_t[]){0, 0, 4, 4}, 4);
    secondcoop_write_plan(4, tails, 4, heads, 4, costs, 4, classes, 4, out, sizeof out,
                          figures);
    expect("write_plan", figures, (const uint64_t[]){0, 0, 18, 0}, 4);
    if (memcmp(out, plan_a, sizeof out) != 0)
        wrong++;
    secondcoop_write_plan(4, tails, 4, heads, 4, costs, 4, classes, 3, out, sizeof out,
                          figures);
    expect("write_plan refuses", figures, (const uint64_t[]){3, 0, 0, 0}, 4);
    classes[2] = SECONDCOOP_MAX_CLASS + 1;
    secondcoop_write_plan(4, tails, 4, heads, 4, costs, 4, classes, 4, out, sizeof out,
                          figures);
    expect("write_plan refuses a class", figures,
           (const uint64_t[]){SECONDCOOP_BAD_CLASS, 2, 0, 0}, 4);
}

/* Each figure by its name. */
static void names(void)
{
    static const uint8_t plan[] = {3, 1, 0, 2, 5, 0};
    static const uint32_t anchor[3] = {0, 0, 0}, schedule[] = {300, 200};
    uint64_t figures[SECONDCOOP_PLAN_FIGURES];
    uint32_t route[3], log[1], work[SECONDCOOP_WORK_WORDS(3, 1)];
    uint64_t wide[SECONDCOOP_WIDE_NUMBERS(3)];
    secondcoop_check_plan(plan, sizeof plan, figures);
    wrong += figures[SECONDCOOP_REFUSAL] != SECONDCOOP_NOT_REFUSED;
    wrong += figures[SECONDCOOP_FIRST] != 3 || figures[SECONDCOOP_SECOND] != 1;
    secondcoop_check_plan(plan, 3, figures);
    wrong += figures[SECONDCOOP_REFUSAL] != SECONDCOOP_BAD_NUMBER;
    wrong += figures[SECONDCOOP_POSITION] != 3;
    secondcoop_plan(plan, sizeof plan, 0, 2, 0, anchor, 3, anchor, 0, 0, schedule, 2,
                    house, house_count, 9, route, 3, log, 1, work, sizeof work / sizeof work[0],
                    wide, sizeof wide / sizeof wide[0], figures);
    wrong += figures[SECONDCOOP_PLAN_ENDING] != SECONDCOOP_ROUTE;
    wrong += figures[SECONDCOOP_PLAN_COST] != 5 || figures[SECONDCOOP_PLAN_LENGTH] != 2;
    wrong += figures[SECONDCOOP_PLAN_ROUNDS] != 1 || figures[SECONDCOOP_PLAN_TURNS] != 1;
    wrong += figures[SECONDCOOP_PLAN_BOUND] != 60000;
    secondcoop_plan(plan, 4, 0, 2, 0, anchor, 3, anchor, 0, 0, schedule, 2,
                    house, house_count, 9, route, 3, log, 1, work, sizeof work / sizeof work[0],
                    wide, sizeof wide / sizeof wide[0], figures);
    wrong += figures[SECONDCOOP_PLAN_ENDING] != SECONDCOOP_REFUSED;
    wrong += figures[SECONDCOOP_PLAN_REFUSAL] != SECONDCOOP_BAD_NUMBER;
    wrong += figures[SECONDCOOP_PLAN_POSITION] != 4;
}

static void planner(void)
{
    static const uint32_t anchor[] = {0, 0}, guides[] = {1, 1};
    static const uint8_t plan[] = {2, 0};
    uint32_t route[2] = {7, 7}, log[1] = {7}, work[7];
    uint64_t figures[SECONDCOOP_PLAN_FIGURES], wide[4];
    secondcoop_plan(plan, sizeof plan, 0, 1, 0, anchor, 2, guides, 2, 1, guides, 0,
                    house, house_count, 9, route, 2, log, 1, work, 7, wide, 4, figures);
    expect("plan", figures, (const uint64_t[]){SECONDCOOP_NO_ROUTE, 0, 0, 0, 0, 0, 1, 0}, 8);
    /* No lanes; the guide refuses place 0, since its key is too great, and the
     * anchor expands it. */
    const uint32_t words[7] = {0, 0, 0, SECONDCOOP_NONE, 2, SECONDCOOP_NONE, 0};
    if (route[0] != 7 || log[0] != 0 || memcmp(work, words, sizeof words) != 0)
        wrong++;
    expect("wide memory", wide,
           (const uint64_t[]){0, 0, SECONDCOOP_UNREACHED, SECONDCOOP_UNREACHED}, 4);
    secondcoop_plan(plan, sizeof plan, 0, 1, 0, anchor, 2, guides, 2, 1, guides, 0,
                    house, house_count, 0, route, 2, log, 1, work, 7, wide, 4, figures);
    expect("plan without turns", figures,
           (const uint64_t[]){SECONDCOOP_UNFINISHED, 0, 0, 0, 0, 0, 0, 0}, 8);
    secondcoop_plan(plan, sizeof plan, 0, 2, 0, anchor, 2, guides, 2, 1, guides, 0,
                    house, house_count, 9, route, 2, log, 1, work, 7, wide, 4, figures);
    expect("plan refuses", figures,
           (const uint64_t[]){SECONDCOOP_REFUSED, 8, 0, 0, 0, 0, 0, 0}, 8);
}

/* A guide without opinion on place 0 leaves it to the anchor, in whose table
 * the same number is one; at one less the guide expands it. */
static void opinions(void)
{
    static const uint8_t plan[] = {2, 0};
    static const uint32_t anchor[] = {SECONDCOOP_NO_OPINION, 0};
    static const struct {
        uint32_t guides[2], log;
    } calls[] = {
        {{SECONDCOOP_NO_OPINION, SECONDCOOP_NO_OPINION}, 0},
        {{SECONDCOOP_NO_OPINION, 0}, 0},
        {{SECONDCOOP_NO_OPINION - 1, 0}, 65536},
    };
    uint32_t route[2], log[1], work[7];
    uint64_t figures[SECONDCOOP_PLAN_FIGURES], wide[4];
    for (size_t at = 0; at < sizeof calls / sizeof *calls; at++) {
        secondcoop_plan(plan, sizeof plan, 0, 1, 0, anchor, 2, calls[at].guides, 2, 1, anchor, 0,
                        house, house_count, 9, route, 2, log, 1, work, 7, wide, 4, figures);
        expect("opinions", figures,
               (const uint64_t[]){SECONDCOOP_NO_ROUTE, 0, 0, 0, 0, 0, 1, 0}, 8);
        wrong += log[0] != calls[at].log;
    }
}

/* Lanes of classes 0, 1 and 2 from place 0 to 2, to 1 and from 1 to 2: what a
 * barred number leaves of them. */
static void barred(void)
{
    static const uint8_t plan[] = {3, 3, 0, 1, 1, 1, 0, 2, 9, 0, 1, 2, 1, 2};
    static const uint32_t anchor[3] = {0, 0, 0};
    static const struct {
        uint32_t barred;
        uint64_t ending, cost;
    } calls[] = {
        {0, SECONDCOOP_ROUTE, 2},
        {SECONDCOOP_CLASS(0), SECONDCOOP_ROUTE, 2},
        {SECONDCOOP_CLASS(1), SECONDCOOP_ROUTE, 9},
        {SECONDCOOP_CLASS(1) | SECONDCOOP_CLASS(2), SECONDCOOP_ROUTE, 9},
        {SECONDCOOP_CLASS(0) | SECONDCOOP_CLASS(2), SECONDCOOP_NO_ROUTE, 0},
        {SECONDCOOP_MAX_BARRED & ~SECONDCOOP_CLASS(0), SECONDCOOP_ROUTE, 9},
        {SECONDCOOP_MAX_BARRED, SECONDCOOP_NO_ROUTE, 0},
        {SECONDCOOP_MAX_BARRED + 1, SECONDCOOP_REFUSED, 0},
    };
    uint32_t route[3], log[1], work[SECONDCOOP_WORK_WORDS(3, 3)];
    uint64_t wide[SECONDCOOP_WIDE_NUMBERS(3)], figures[SECONDCOOP_PLAN_FIGURES];
    for (size_t at = 0; at < sizeof calls / sizeof *calls; at++) {
        secondcoop_plan(plan, sizeof plan, 0, 2, calls[at].barred, anchor, 3, anchor, 0, 0,
                        anchor, 0, house, house_count, 99, route, 3, log, 1,
                        work, sizeof work / sizeof work[0],
                        wide, sizeof wide / sizeof wide[0], figures);
        wrong += figures[SECONDCOOP_PLAN_ENDING] != calls[at].ending;
        wrong += figures[SECONDCOOP_PLAN_COST] != calls[at].cost;
    }
    wrong += figures[SECONDCOOP_PLAN_REFUSAL] != SECONDCOOP_BAD_ENDS_OR_BARRED;
}

/* The same lanes: what is listed where there is no route, and that nothing is
 * on a route, unfinished or a refusal. */
static void explanations(void)
{
    static const uint8_t plan[] = {3, 3, 0, 1, 1, 1, 0, 2, 9, 0, 1, 2, 1, 2};
    static const uint32_t anchor[3] = {0, 0, 0};
    static const struct {
        uint32_t barred, budget;
        size_t places_length, lanes_length;
        uint64_t ending, refusal, listed[2];
        uint32_t places[3], lanes[3];
    } calls[] = {
        {SECONDCOOP_MAX_BARRED, 9, 3, 3, SECONDCOOP_NO_ROUTE, 0, {1, 2}, {0, 7, 7}, {0, 1, 7}},
        {SECONDCOOP_CLASS(0) | SECONDCOOP_CLASS(2), 2, 3, 3, SECONDCOOP_NO_ROUTE, 0, {2, 2},
         {0, 1, 7}, {1, 2, 7}},
        {SECONDCOOP_CLASS(0) | SECONDCOOP_CLASS(2), 1, 3, 3, SECONDCOOP_UNFINISHED, 0, {0, 0},
         {7, 7, 7}, {7, 7, 7}},
        {SECONDCOOP_CLASS(1), 9, 3, 3, SECONDCOOP_ROUTE, 0, {0, 0}, {7, 7, 7}, {7, 7, 7}},
        {SECONDCOOP_MAX_BARRED + 1, 9, 2, 2, SECONDCOOP_REFUSED, SECONDCOOP_BAD_ENDS_OR_BARRED,
         {0, 0}, {7, 7, 7}, {7, 7, 7}},
        {SECONDCOOP_MAX_BARRED, 9, 2, 3, SECONDCOOP_REFUSED, SECONDCOOP_SHORT_MEMORY, {0, 0},
         {7, 7, 7}, {7, 7, 7}},
        {SECONDCOOP_MAX_BARRED, 9, 3, 2, SECONDCOOP_REFUSED, SECONDCOOP_SHORT_MEMORY, {0, 0},
         {7, 7, 7}, {7, 7, 7}},
    };
    uint32_t route[3], log[1], work[SECONDCOOP_WORK_WORDS(3, 3)];
    uint64_t wide[SECONDCOOP_WIDE_NUMBERS(3)], figures[SECONDCOOP_EXPLAIN_FIGURES];
    for (size_t at = 0; at < sizeof calls / sizeof *calls; at++) {
        uint32_t places[SECONDCOOP_PLACES_WORDS(3)] = {7, 7, 7};
        uint32_t lanes[SECONDCOOP_LANES_WORDS(3)] = {7, 7, 7};
        secondcoop_explain(plan, sizeof plan, 0, 2, calls[at].barred, anchor, 3, anchor, 0, 0,
                           anchor, 0, house, house_count, calls[at].budget, route, 3, log, 1,
                           work, sizeof work / sizeof work[0],
                           wide, sizeof wide / sizeof wide[0],
                           places, calls[at].places_length, lanes, calls[at].lanes_length,
                           figures);
        wrong += figures[SECONDCOOP_PLAN_ENDING] != calls[at].ending;
        wrong += figures[SECONDCOOP_PLAN_REFUSAL] != calls[at].refusal;
        wrong += figures[SECONDCOOP_EXPLAIN_PLACES] != calls[at].listed[0];
        wrong += figures[SECONDCOOP_EXPLAIN_LANES] != calls[at].listed[1];
        wrong += memcmp(places, calls[at].places, sizeof places) != 0;
        wrong += memcmp(lanes, calls[at].lanes, sizeof lanes) != 0;
    }
}

static void text(void)
{
    static const uint8_t job[] = {2, 2, 0, 0, 1, 0, 1, 0, 0, 0, 0};
    static const char printed[] = "turn 1 table 0 place 0\nno route turns 1\n";
    uint8_t lent[64];
    memset(lent, 0xEE, sizeof lent);
    const size_t length = strlen(printed);
    if (secondcoop_bench_text(job, sizeof job, lent, 5) != length)
        wrong++;
    if (memcmp(lent, printed, 5) != 0 || lent[5] != 0xEE)
        wrong++;
    if (secondcoop_bench_text(job, sizeof job, lent, sizeof lent) != length)
        wrong++;
    if (memcmp(lent, printed, length) != 0 || lent[length] != 0xEE)
        wrong++;
}

/* A job with a lane from place 0 to 1, of class 6, which is barred. */
static void lines(void)
{
    static const uint8_t job[] = {6, 2, 1, 0, 1, 5, 6, 0, 1, 64, 9, 0, 0, 0, 0};
    static const char printed[] = "no route turns 1\nreach 0\n"
                                  "barred lane 0 tail 0 head 1 cost 5 class 6\n";
    uint8_t lent[128];
    memset(lent, 0xEE, sizeof lent);
    const size_t length = strlen(printed);
    wrong += secondcoop_explain_text(job, sizeof job, lent, 9) != length;
    wrong += memcmp(lent, printed, 9) != 0 || lent[9] != 0xEE;
    wrong += secondcoop_explain_text(job, sizeof job, lent, sizeof lent) != length;
    wrong += memcmp(lent, printed, length) != 0 || lent[length] != 0xEE;
}

/* Sizes, also within other expressions. */
_Static_assert(SECONDCOOP_PLAN_BYTES(0) == 5 && SECONDCOOP_PLAN_BYTES(1) == 14, "plan bytes");
_Static_assert(2 * SECONDCOOP_PLAN_BYTES(2 + 2) == 82, "plan bytes");
_Static_assert(SECONDCOOP_MAX_PLAN_BYTES == 294917, "plan bytes");
_Static_assert(2 * SECONDCOOP_ROUTE_WORDS(2 + 2) == 8, "route words");
_Static_assert(2 * SECONDCOOP_WORK_WORDS(2 + 2, 2 + 3) == 56, "work words");
_Static_assert(SECONDCOOP_WORK_WORDS(1, 0) == 4, "work words");
_Static_assert(SECONDCOOP_WORK_WORDS(4096, 32768) == 110593, "work words");
_Static_assert(2 * SECONDCOOP_WIDE_NUMBERS(2 + 2) == 16, "wide numbers");
_Static_assert(SECONDCOOP_WIDE_NUMBERS(4096) == 8192, "wide numbers");
_Static_assert(2 * SECONDCOOP_PLACES_WORDS(2 + 2) == 8, "places words");
_Static_assert(2 * SECONDCOOP_LANES_WORDS(2 + 3) == 10, "lanes words");
_Static_assert(SECONDCOOP_EXPLAIN_FIGURES == SECONDCOOP_PLAN_FIGURES + 2, "figures");
_Static_assert(SECONDCOOP_EXPLAIN_PLACES == SECONDCOOP_PLAN_FIGURES, "figures");
_Static_assert(SECONDCOOP_HOUSE_NUMBERS == 2 * SECONDCOOP_MAX_ROUNDS, "house numbers");
_Static_assert(SECONDCOOP_UNREACHED == UINT64_MAX, "not reached");
_Static_assert(SECONDCOOP_NO_OPINION == UINT32_MAX, "no opinion");
_Static_assert(SECONDCOOP_CLASS(0) == 1 && SECONDCOOP_CLASS(7 - 1) == 64, "classes");
_Static_assert((SECONDCOOP_CLASS(SECONDCOOP_MAX_CLASS) << 1) - 1 == SECONDCOOP_MAX_BARRED,
               "classes");
_Static_assert(SECONDCOOP_TURNS(1, 1) == 2 && SECONDCOOP_TURNS(1, 6) == 12, "turns");
_Static_assert(2 * SECONDCOOP_TURNS(2 + 2, 2 + 1) == 48, "turns");
_Static_assert(SECONDCOOP_TURNS(4096, 16) == 131072, "turns");

/* A plan that is refused with a number at a position. */
static void refused_plan(const char *name, const uint8_t *bytes, size_t length,
                         uint64_t number, uint64_t position)
{
    uint64_t figures[SECONDCOOP_FIGURES];
    secondcoop_check_plan(bytes, length, figures);
    if (number == SECONDCOOP_NOT_REFUSED)
        figures[SECONDCOOP_FIRST] = 0;
    expect(name, figures, (const uint64_t[]){number, position, 0, 0}, 4);
}

static void plan_refusals(void)
{
#define REFUSED(number, position, ...) \
    refused_plan(#number, (const uint8_t[]){__VA_ARGS__}, \
                 sizeof (const uint8_t[]){__VA_ARGS__}, number, position)
    REFUSED(SECONDCOOP_BAD_NUMBER, 1, 4, 0x80, 0);
    REFUSED(SECONDCOOP_BAD_NUMBER, 1, 4, 0x80, 0x80, 0x80, 0x80, 1);
    REFUSED(SECONDCOOP_BAD_PLACE_COUNT, 0, 0, 0);
    REFUSED(SECONDCOOP_BAD_PLACE_COUNT, 0, 0x81, 0x20, 0);
    REFUSED(SECONDCOOP_NOT_REFUSED, 0, 0x80, 0x20, 0);
    REFUSED(SECONDCOOP_BAD_LANE_COUNT, 1, 4, 0x81, 0x80, 0x02);
    REFUSED(SECONDCOOP_BAD_LANE_COUNT, 1, 4, 0x80, 0x80, 0x80, 1);
    REFUSED(SECONDCOOP_NOT_A_PLACE, 3, 4, 1, 0, 4, 1, 0);
    REFUSED(SECONDCOOP_BAD_COST, 4, 4, 1, 0, 1, 0x81, 0xC8, 0xD0, 0x07, 8);
    REFUSED(SECONDCOOP_BAD_CLASS, 8, 4, 1, 0, 1, 0x80, 0xC8, 0xD0, 0x07, 8);
    REFUSED(SECONDCOOP_BAD_LANE_ORDER, 7, 4, 2, 0, 1, 1, 0, 0, 1, 1, 0);
    REFUSED(SECONDCOOP_BYTES_LEFT_OVER, 2, 4, 0, 0);
#undef REFUSED
}

/* Job A's floor with one argument that is refused. */
static void refused_call(const char *name, uint32_t goal, uint32_t barred, size_t anchor_length,
                         uint32_t second, uint32_t last, uint32_t factor,
                         size_t route_length, size_t work_length, size_t wide_length,
                         uint64_t number, uint64_t position)
{
    const uint32_t anchor[] = {6, second, 3, last}, schedule[] = {factor, 100};
    uint32_t route[4], log[1], work[SECONDCOOP_WORK_WORDS(4, 4)];
    uint64_t wide[SECONDCOOP_WIDE_NUMBERS(4)], figures[SECONDCOOP_PLAN_FIGURES];
    secondcoop_plan(plan_a, sizeof plan_a, 0, goal, barred, anchor, anchor_length, anchor, 0, 0,
                    schedule, 2, house, house_count, 9, route, route_length, log, 1,
                    work, work_length, wide, wide_length, figures);
    expect(name, figures,
           (const uint64_t[]){SECONDCOOP_REFUSED, number, position, 0, 0, 0, 0, 0}, 8);
}

static void call_refusals(void)
{
    refused_call("goal", 4, 0, 4, 5, 0, 100, 4, 25, 8, SECONDCOOP_BAD_ENDS_OR_BARRED, 0);
    refused_call("barred", 3, 256, 4, 5, 0, 100, 4, 25, 8, SECONDCOOP_BAD_ENDS_OR_BARRED, 0);
    refused_call("tables", 3, 0, 3, 5, 0, 100, 4, 25, 8, SECONDCOOP_BAD_TABLES, 0);
    refused_call("schedule", 3, 0, 4, 5, 0, SECONDCOOP_MIN_FACTOR - 1, 4, 25, 8,
                 SECONDCOOP_BAD_SCHEDULE, 0);
    refused_call("schedule", 3, 0, 4, 5, 0, SECONDCOOP_MAX_FACTOR + 1, 4, 25, 8,
                 SECONDCOOP_BAD_SCHEDULE, 0);
    refused_call("route memory", 3, 0, 4, 5, 0, 100, 3, 25, 8, SECONDCOOP_SHORT_MEMORY, 0);
    refused_call("work memory", 3, 0, 4, 5, 0, 100, 4, 24, 8, SECONDCOOP_SHORT_MEMORY, 0);
    refused_call("wide memory", 3, 0, 4, 5, 0, 100, 4, 25, 7, SECONDCOOP_SHORT_MEMORY, 0);
    refused_call("anchor at goal", 3, 0, 4, 5, 1, 100, 4, 25, 8,
                 SECONDCOOP_ANCHOR_NOT_0_AT_GOAL, 0);
    /* The anchor's 6 at place 1 is above cost 2 + 3 on lane 2, barred or not. */
    refused_call("anchor on lane", 3, 0, 4, 6, 0, 100, 4, 25, 8,
                 SECONDCOOP_ANCHOR_BREAKS_RULE, 2);
    refused_call("anchor on lane", 3, 255, 4, 6, 0, 100, 4, 25, 8,
                 SECONDCOOP_ANCHOR_BREAKS_RULE, 2);
    char printed[32], wanted[32];
    const size_t length = secondcoop_bench_text(plan_a, 0, (uint8_t *)printed, sizeof printed);
    snprintf(wanted, sizeof wanted, "refused %d at 0\n", SECONDCOOP_NOT_A_JOB);
    if (length != strlen(wanted) || memcmp(printed, wanted, length) != 0)
        wrong++;
}

int main(void)
{
    numbers();
    houses();
    calls_on_houses();
    plans();
    names();
    planner();
    opinions();
    barred();
    explanations();
    text();
    lines();
    plan_refusals();
    call_refusals();
    return wrong;
}
