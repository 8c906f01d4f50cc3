// The header in C++: included twice, every function linked and called.
#include "secondcoop.h"
#include "secondcoop.h"

int main()
{
    static const uint8_t plan[] = {3, 1, 0, 2, 5, 7};
    static const uint8_t job[] = {2, 2, 0, 0, 1, 0, 1, 0, 0, 0, 0};
    uint32_t tails[1], heads[1], costs[1], classes[1];
    uint8_t out[SECONDCOOP_PLAN_BYTES(1)];
    uint64_t figures[SECONDCOOP_PLAN_FIGURES];
    int wrong = 0;
    secondcoop_read_plan_number(plan, sizeof plan, 4, figures);
    wrong += figures[SECONDCOOP_FIRST] != 5;
    secondcoop_read_job_number(plan, sizeof plan, 4, figures);
    wrong += figures[SECONDCOOP_FIRST] != 5;
    secondcoop_write_plan_number(out, sizeof out, 0, 5, figures);
    wrong += figures[SECONDCOOP_FIRST] != 1;
    secondcoop_check_plan(plan, sizeof plan, figures);
    wrong += figures[SECONDCOOP_FIRST] != 3;
    secondcoop_read_plan(plan, sizeof plan, tails, 1, heads, 1, costs, 1, classes, 1, figures);
    wrong += figures[SECONDCOOP_SECOND] != 1 || classes[0] != SECONDCOOP_MAX_CLASS;
    secondcoop_write_plan(3, tails, 1, heads, 1, costs, 1, classes, 1, out, sizeof out,
                          figures);
    wrong += figures[SECONDCOOP_FIRST] != sizeof plan;
    static const uint32_t anchor[3] = {0, 0, 0};
    uint32_t route[3], log[1], work[SECONDCOOP_WORK_WORDS(3, 1)];
    uint64_t wide[SECONDCOOP_WIDE_NUMBERS(3)];
    const uint32_t allowance = SECONDCOOP_TURNS(3, SECONDCOOP_STANDARD_ROUNDS);
    uint32_t house[SECONDCOOP_HOUSE_NUMBERS], count;
    secondcoop_standard_house(house, &count);
    wrong += count != 2 * SECONDCOOP_STANDARD_ROUNDS;
    wrong += secondcoop_load_house(anchor, 2, house, &count) != SECONDCOOP_BAD_SCHEDULE;
    secondcoop_plan(plan, sizeof plan, 0, 2, SECONDCOOP_CLASS(6), anchor, 3, anchor, 0, 0,
                    anchor, 0, house, count, allowance, route, 3, log, 1,
                    work, sizeof work / sizeof work[0],
                    wide, sizeof wide / sizeof wide[0], figures);
    wrong += figures[SECONDCOOP_PLAN_ENDING] != SECONDCOOP_ROUTE;
    wrong += figures[SECONDCOOP_PLAN_COST] != 5 || wide[3] != SECONDCOOP_UNREACHED;
    uint32_t places[SECONDCOOP_PLACES_WORDS(3)], lanes[SECONDCOOP_LANES_WORDS(1)];
    uint64_t explained[SECONDCOOP_EXPLAIN_FIGURES];
    secondcoop_explain(plan, sizeof plan, 0, 2, SECONDCOOP_CLASS(7), anchor, 3, anchor, 0, 0,
                       anchor, 0, house, count, allowance, route, 3, log, 1,
                       work, sizeof work / sizeof work[0], wide, sizeof wide / sizeof wide[0],
                       places, 3, lanes, 1, explained);
    wrong += explained[SECONDCOOP_PLAN_ENDING] != SECONDCOOP_NO_ROUTE;
    wrong += explained[SECONDCOOP_EXPLAIN_PLACES] != 1 || places[0] != 0;
    wrong += explained[SECONDCOOP_EXPLAIN_LANES] != 1 || lanes[0] != 0;
    wrong += secondcoop_bench_text(job, sizeof job, out, sizeof out) != 40;
    wrong += secondcoop_explain_text(job, sizeof job, out, sizeof out) != 25;
    return wrong;
}
