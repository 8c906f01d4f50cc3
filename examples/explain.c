/*
 * Why there is no route: two storeys whose only way up is a ramp, the floor of
 * only-ramp.txt, for a tug that must keep off slopes. Prints the places that
 * the tug can reach and the barred lanes that leave them; then what there is
 * to explain once it may use slopes, and within two turns. The exit status is
 * 0 only if all three are as they should be.
 *
 *   cc -std=c11 -Wall -Wextra -Werror -Iinclude examples/explain.c \
 *       target/staticlib/libffi_plans.a target/staticlib/libffi_planner.a \
 *       -o target/explain && target/explain
 */
#include <inttypes.h>
#include <stdio.h>

#include "secondcoop.h"

enum { PLACES = 10, LANES = 20, GATE = 0, STORE = 8, SLOPES = 1 };

/* The floor's lanes in plan order. */
static const uint32_t tails[LANES] = {0, 0, 1, 1, 1, 2, 2, 3, 3, 4, 4, 5, 5, 6, 6, 6, 7, 7, 8, 9};
static const uint32_t heads[LANES] = {1, 9, 0, 2, 3, 1, 3, 2, 4, 3, 5, 4, 6, 2, 5, 7, 6, 8, 7, 0};
static const uint32_t costs[LANES] = {2, 3, 2, 2, 3, 2, 2, 2, 2, 2, 6, 6, 2, 1, 2, 2, 2, 2, 2, 3};
static const uint32_t classes[LANES] = {0, 0, 0, 0, SLOPES, 0, 0, 0, 0, 0, SLOPES, SLOPES,
                                        0, 0, 0, 0, 0, SLOPES, 0, 0};

/* What an explanation leaves. */
struct outcome {
    uint64_t figures[SECONDCOOP_EXPLAIN_FIGURES];
    uint32_t places[SECONDCOOP_PLACES_WORDS(PLACES)];
    uint32_t lanes[SECONDCOOP_LANES_WORDS(LANES)];
};

/* The job from the gate to the store on our own house schedule. */
static void explain(uint32_t barred, uint32_t allowance, struct outcome *outcome)
{
    static const uint32_t anchor[PLACES]; /* of zeros, which always passes */
    static const uint32_t none[1];
    static uint8_t plan[SECONDCOOP_PLAN_BYTES(LANES)];
    static uint32_t route[SECONDCOOP_ROUTE_WORDS(PLACES)];
    static uint32_t log[SECONDCOOP_TURNS(PLACES, SECONDCOOP_STANDARD_ROUNDS)];
    static uint32_t work[SECONDCOOP_WORK_WORDS(PLACES, LANES)];
    static uint64_t wide[SECONDCOOP_WIDE_NUMBERS(PLACES)];
    uint32_t house[SECONDCOOP_HOUSE_NUMBERS], count;
    uint64_t written[SECONDCOOP_FIGURES];
    secondcoop_standard_house(house, &count);
    secondcoop_write_plan(PLACES, tails, LANES, heads, LANES, costs, LANES, classes, LANES,
                          plan, sizeof plan, written);
    secondcoop_explain(plan, written[SECONDCOOP_FIRST], GATE, STORE, barred,
                       anchor, PLACES, none, 0, 0, none, 0, house, count, allowance,
                       route, PLACES, log, sizeof log / sizeof *log,
                       work, sizeof work / sizeof *work, wide, sizeof wide / sizeof *wide,
                       outcome->places, PLACES, outcome->lanes, LANES, outcome->figures);
}

static void print_lists(const struct outcome *outcome)
{
    const uint64_t places = outcome->figures[SECONDCOOP_EXPLAIN_PLACES];
    const uint64_t lanes = outcome->figures[SECONDCOOP_EXPLAIN_LANES];
    printf("no route; the tug can reach %" PRIu64 " places:", places);
    for (uint64_t at = 0; at < places; at++)
        printf(" %" PRIu32, outcome->places[at]);
    printf("\nbarred lanes that lead out of these: %" PRIu64 "\n", lanes);
    for (uint64_t at = 0; at < lanes; at++) {
        const uint32_t lane = outcome->lanes[at];
        printf("lane %" PRIu32 " from %" PRIu32 " to %" PRIu32 ", cost %" PRIu32
               ", of class %" PRIu32 "\n",
               lane, tails[lane], heads[lane], costs[lane], classes[lane]);
    }
}

/* Says what an explanation gives; 0 if it has this ending and so many places
 * and lanes. */
static int print(const char *name, const struct outcome *outcome, uint64_t ending,
                 uint64_t places, uint64_t lanes)
{
    const uint64_t *figures = outcome->figures;
    printf("%s: ", name);
    if (figures[SECONDCOOP_PLAN_ENDING] == SECONDCOOP_NO_ROUTE)
        print_lists(outcome);
    else if (figures[SECONDCOOP_PLAN_ENDING] == SECONDCOOP_ROUTE)
        printf("a route, cost %" PRIu64 "; nothing to explain\n", figures[SECONDCOOP_PLAN_COST]);
    else if (figures[SECONDCOOP_PLAN_ENDING] == SECONDCOOP_UNFINISHED)
        printf("unfinished after %" PRIu64 " turns; nothing is known\n",
               figures[SECONDCOOP_PLAN_TURNS]);
    else
        printf("refusal %" PRIu64 "\n", figures[SECONDCOOP_PLAN_REFUSAL]);
    return figures[SECONDCOOP_PLAN_ENDING] != ending
           || figures[SECONDCOOP_EXPLAIN_PLACES] != places
           || figures[SECONDCOOP_EXPLAIN_LANES] != lanes;
}

int main(void)
{
    static struct outcome outcome;
    const uint32_t enough = SECONDCOOP_TURNS(PLACES, SECONDCOOP_STANDARD_ROUNDS);
    int wrong = 0;
    explain(SECONDCOOP_CLASS(SLOPES), enough, &outcome);
    wrong |= print("slopes barred", &outcome, SECONDCOOP_NO_ROUTE, 6, 1);
    wrong |= outcome.lanes[0] != 10;
    explain(0, enough, &outcome);
    wrong |= print("slopes open", &outcome, SECONDCOOP_ROUTE, 0, 0);
    explain(SECONDCOOP_CLASS(SLOPES), 2, &outcome);
    wrong |= print("slopes barred, two turns", &outcome, SECONDCOOP_UNFINISHED, 0, 0);
    return wrong;
}
