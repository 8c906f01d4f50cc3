/*
 * A cold store's own house schedule: the floor of wall.txt is planned on the
 * standard house, a bad sheet is rejected, a slow one is loaded, and the floor
 * is planned on that. Prints both turn logs and both answers. The exit status
 * is 0 only if the loads and the costs of both routes are right.
 *
 *   cc -std=c11 -Wall -Wextra -Werror -Iinclude examples/cold_store.c \
 *       target/staticlib/libffi_plans.a target/staticlib/libffi_planner.a \
 *       -o target/cold_store && target/cold_store
 */
#include <inttypes.h>
#include <stdio.h>
#include <stdlib.h>

#include "secondcoop.h"

enum { WIDTH = 6, HEIGHT = 4, PLACES = WIDTH * HEIGHT, LANES = 4 * PLACES };
enum { START = 6, RAMP = 3, GOAL = 11, NO_BAR = 0, CHEAPEST = 18 };

/* A house schedule of the site's: the first `count` numbers are in force. */
struct house {
    uint32_t numbers[SECONDCOOP_HOUSE_NUMBERS], count;
};

/* What a planner call leaves. */
struct outcome {
    uint64_t figures[SECONDCOOP_PLAN_FIGURES];
    uint32_t log[SECONDCOOP_TURNS(PLACES, SECONDCOOP_MAX_ROUNDS)];
};

static int is_wall(uint32_t place)
{
    return place == 9 || place == 15;
}

/* The floor's lanes, by rising tails and heads: a step costs 2, one over the
 * ramp 9, and all are of class 0. Gives the count of plan bytes. */
static size_t write_floor(uint8_t *plan, size_t plan_length, size_t *lanes)
{
    static const int steps[] = {-WIDTH, -1, 1, WIDTH};
    static uint32_t tails[LANES], heads[LANES], costs[LANES], classes[LANES];
    uint64_t figures[SECONDCOOP_FIGURES];
    size_t count = 0;
    for (int tail = 0; tail < PLACES; tail++) {
        for (int step = 0; step < 4; step++) {
            const int head = tail + steps[step];
            const int across = abs(steps[step]) == 1 && head / WIDTH != tail / WIDTH;
            if (head < 0 || head >= PLACES || across || is_wall(tail) || is_wall(head))
                continue;
            tails[count] = tail;
            heads[count] = head;
            costs[count++] = tail == RAMP || head == RAMP ? 9 : 2;
        }
    }
    secondcoop_write_plan(PLACES, tails, count, heads, count, costs, count, classes, count,
                          plan, plan_length, figures);
    *lanes = count;
    return figures[SECONDCOOP_REFUSAL] == SECONDCOOP_NOT_REFUSED ? figures[SECONDCOOP_FIRST] : 0;
}

/* A call without a schedule: the site's house serves. */
static void plan_on(const struct house *house, struct outcome *outcome)
{
    /* Foolish: left of the wall it leads to the ramp. */
    static const uint32_t guide[PLACES] = {6,  4, 2, 0, 4, 2, 8,  6,  4, 2, 2, 0,
                                           10, 8, 6, 4, 4, 2, 12, 10, 8, 6, 6, 4};
    static const uint32_t no_schedule[1];
    static uint8_t plan[SECONDCOOP_PLAN_BYTES(LANES)];
    static uint32_t route[SECONDCOOP_ROUTE_WORDS(PLACES)];
    static uint32_t work[SECONDCOOP_WORK_WORDS(PLACES, LANES)];
    static uint64_t wide[SECONDCOOP_WIDE_NUMBERS(PLACES)];
    uint32_t anchor[PLACES];
    size_t lanes;
    const size_t plan_length = write_floor(plan, sizeof plan, &lanes);
    /* Two for each step, as if there were no wall. */
    for (int place = 0; place < PLACES; place++)
        anchor[place] = 2 * (abs(place % WIDTH - GOAL % WIDTH) + abs(place / WIDTH - GOAL / WIDTH));
    secondcoop_plan(plan, plan_length, START, GOAL, NO_BAR, anchor, PLACES, guide, PLACES, 1,
                    no_schedule, 0, house->numbers, house->count,
                    SECONDCOOP_TURNS(PLACES, house->count / 2),
                    route, PLACES, outcome->log, sizeof outcome->log / sizeof outcome->log[0],
                    work, SECONDCOOP_WORK_WORDS(PLACES, lanes),
                    wide, sizeof wide / sizeof wide[0], outcome->figures);
}

/* Loads a sheet and says what came of it. */
static uint32_t load(const char *name, const uint32_t *sheet, size_t length, struct house *house)
{
    const uint32_t refusal =
        secondcoop_load_house(sheet, length, house->numbers, &house->count);
    if (refusal == SECONDCOOP_NOT_REFUSED)
        printf("%s: loaded", name);
    else
        printf("%s: rejected, refusal %" PRIu32, name, refusal);
    printf("; the house has %" PRIu32 " rounds\n", house->count / 2);
    return refusal;
}

/* One turn of a log in words, or a stroke past its end. */
static const char *turn_words(const struct outcome *outcome, uint64_t turn, char words[32])
{
    if (turn >= outcome->figures[SECONDCOOP_PLAN_TURNS])
        return "-";
    snprintf(words, 32, "table %" PRIu32 " place %" PRIu32, outcome->log[turn] / 65536,
             outcome->log[turn] % 65536);
    return words;
}

static void print_logs(const struct outcome *ours, const struct outcome *theirs)
{
    char left[32], right[32];
    printf("turn | %-16s | the cold store's\n", "our six rounds");
    for (uint64_t turn = 0; turn < ours->figures[SECONDCOOP_PLAN_TURNS]
                            || turn < theirs->figures[SECONDCOOP_PLAN_TURNS]; turn++)
        printf("%4" PRIu64 " | %-16s | %s\n", turn + 1, turn_words(ours, turn, left),
               turn_words(theirs, turn, right));
}

static void print_answer(const char *name, const struct outcome *outcome)
{
    printf("%s: cost %" PRIu64 " rounds %" PRIu64 " turns %" PRIu64 " bound %" PRIu64 "\n", name,
           outcome->figures[SECONDCOOP_PLAN_COST], outcome->figures[SECONDCOOP_PLAN_ROUNDS],
           outcome->figures[SECONDCOOP_PLAN_TURNS], outcome->figures[SECONDCOOP_PLAN_BOUND]);
}

static int is_right(const struct outcome *outcome)
{
    return outcome->figures[SECONDCOOP_PLAN_ENDING] == SECONDCOOP_ROUTE
           && outcome->figures[SECONDCOOP_PLAN_COST] == CHEAPEST;
}

int main(void)
{
    /* W1 and W2 of each round; the bad sheet's second round is above its first. */
    static const uint32_t bad[] = {150, 150, 180, 180, 100, 100};
    static const uint32_t slow[] = {200, 200, 180, 180, 160, 160, 150, 150, 140, 140,
                                    130, 130, 120, 120, 110, 110, 100, 100};
    static struct house house;
    static struct outcome ours, theirs;
    secondcoop_standard_house(house.numbers, &house.count);
    plan_on(&house, &ours);
    const uint32_t rejected = load("a sheet that rises", bad, sizeof bad / sizeof *bad, &house);
    const uint32_t loaded = load("a slow sheet", slow, sizeof slow / sizeof *slow, &house);
    plan_on(&house, &theirs);

    print_logs(&ours, &theirs);
    print_answer("our six rounds", &ours);
    print_answer("the cold store's", &theirs);
    return rejected != SECONDCOOP_BAD_SCHEDULE || loaded != SECONDCOOP_NOT_REFUSED
           || !is_right(&ours) || !is_right(&theirs);
}
