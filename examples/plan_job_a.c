/*
 * Plans job A of document 01 and prints answer and route. The exit status is
 * 0 only if the answer is the paper's.
 *
 *   cc -std=c11 -Wall -Wextra -Werror -Iinclude examples/plan_job_a.c \
 *       target/staticlib/libffi_planner.a -o target/plan_job_a && target/plan_job_a
 */
#include <inttypes.h>
#include <stdio.h>
#include <string.h>

#include "secondcoop.h"

enum { PLACES = 4, LANES = 4, ROUNDS = 2, LENGTH = 4, NO_BAR = 0 };

int main(void)
{
    /* V and M, then tail difference, head, cost and class of each lane. */
    static const uint8_t plan[] = {PLACES, LANES, 0, 1, 1, 0, 0, 2, 4, 0,
                                   1, 2, 2, 0, 1, 3, 3, 0};
    static const uint32_t anchor[PLACES] = {6, 5, 3, 0};
    static const uint32_t guide[PLACES] = {0, 9, 0, 0};
    static const uint32_t schedule[2 * ROUNDS] = {200, 200, 100, 100};
    static const uint32_t house[SECONDCOOP_HOUSE_NUMBERS];
    uint32_t route[SECONDCOOP_ROUTE_WORDS(PLACES)];
    uint32_t log[SECONDCOOP_TURNS(PLACES, ROUNDS)];
    uint32_t work[SECONDCOOP_WORK_WORDS(PLACES, LANES)];
    uint64_t wide[SECONDCOOP_WIDE_NUMBERS(PLACES)];
    uint64_t figures[SECONDCOOP_PLAN_FIGURES];

    /* Job A bars no class; SECONDCOOP_CLASS(1) would keep a tug off lanes of
     * class 1. It has a schedule, so that no house is looked at. Its allowance
     * is 100 turns; SECONDCOOP_TURNS, 16, would do. */
    secondcoop_plan(plan, sizeof plan, 0, 3, NO_BAR, anchor, PLACES, guide, PLACES, 1,
                    schedule, 2 * ROUNDS, house, 0, 100,
                    route, PLACES, log, sizeof log / sizeof log[0],
                    work, sizeof work / sizeof work[0],
                    wide, sizeof wide / sizeof wide[0], figures);

    switch (figures[SECONDCOOP_PLAN_ENDING]) {
    case SECONDCOOP_ROUTE:
        printf("route");
        for (uint64_t i = 0; i < figures[SECONDCOOP_PLAN_LENGTH]; i++)
            printf(" %" PRIu32, route[i]);
        printf("\nend cost %" PRIu64 " rounds %" PRIu64 " turns %" PRIu64
               " bound %" PRIu64 "\n",
               figures[SECONDCOOP_PLAN_COST], figures[SECONDCOOP_PLAN_ROUNDS],
               figures[SECONDCOOP_PLAN_TURNS], figures[SECONDCOOP_PLAN_BOUND]);
        break;
    case SECONDCOOP_NO_ROUTE:
        printf("no route turns %" PRIu64 "\n", figures[SECONDCOOP_PLAN_TURNS]);
        break;
    case SECONDCOOP_UNFINISHED:
        printf("unfinished turns %" PRIu64 "\n", figures[SECONDCOOP_PLAN_TURNS]);
        break;
    default:
        printf("refused %" PRIu64 " at %" PRIu64 "\n",
               figures[SECONDCOOP_PLAN_REFUSAL], figures[SECONDCOOP_PLAN_POSITION]);
    }

    /* The paper's answer: cost 6, two rounds, four turns, bound 10000. */
    static const uint64_t answer[SECONDCOOP_PLAN_FIGURES] = {
        SECONDCOOP_ROUTE, 0, 0, 6, LENGTH, ROUNDS, 4, 10000};
    static const uint32_t places[LENGTH] = {0, 1, 2, 3};
    static const uint32_t turns[] = {65536, 65538, 1, 65538};
    /* Cost and cost when last expanded of each place: the goal never was. */
    static const uint64_t costs[2 * PLACES] = {0, 0, 1, 1, 3, 3, 6, SECONDCOOP_UNREACHED};
    if (memcmp(figures, answer, sizeof answer) != 0)
        return 1;
    if (memcmp(route, places, sizeof places) != 0)
        return 1;
    if (memcmp(wide, costs, sizeof costs) != 0)
        return 1;
    return memcmp(log, turns, sizeof turns) != 0;
}
