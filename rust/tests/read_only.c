/*
 * What a call leaves untouched is not written at all: rejected sheets and
 * refused calls run with memory that cannot be written, and explanations that
 * list nothing with such lists. Prints what is wrong; the exit status is 0 if
 * nothing is.
 */
#define _DEFAULT_SOURCE
#include <inttypes.h>
#include <stdio.h>
#include <string.h>
#include <sys/mman.h>

#include "secondcoop.h"

enum { PLACES = 4, LANES = 4, NUMBERS = 4096 };

static int wrong;

static void must(int holds, const char *what)
{
    if (!holds) {
        printf("%s\n", what);
        wrong = 1;
    }
}

/* Memory full of a pattern that can only be read, or written too. */
static void *memory(int protection)
{
    const size_t bytes = NUMBERS * sizeof(uint64_t);
    void *all = mmap(NULL, bytes, PROT_READ | PROT_WRITE, MAP_PRIVATE | MAP_ANONYMOUS, -1, 0);
    if (all == MAP_FAILED)
        return NULL;
    memset(all, 0xA5, bytes);
    return mprotect(all, bytes, protection) == 0 ? all : NULL;
}

static void rejected_sheets(uint32_t *house)
{
    static const uint32_t bad[] = {200, 200, 300, 100};
    static const struct {
        const char *name;
        size_t length;
    } sheets[] = {{"an empty sheet", 0}, {"an odd one", 3}, {"a rising one", 4}};
    for (size_t i = 0; i < sizeof sheets / sizeof *sheets; i++)
        must(secondcoop_load_house(bad, sheets[i].length, house, house + SECONDCOOP_HOUSE_NUMBERS)
                 == SECONDCOOP_BAD_SCHEDULE,
             sheets[i].name);
}

static const uint8_t plan[] = {PLACES, LANES, 0, 1, 1, 0, 0, 2, 4, 0, 1, 2, 2, 0, 1, 3, 3, 0};

/* Job A, with what one refusal asks for changed; all lent memory at `lent`. */
static void refused_call(uint64_t *lent, uint32_t number)
{
    static const uint32_t anchors[][PLACES] = {{6, 5, 3, 0}, {6, 5, 3, 1}, {7, 5, 3, 0}};
    static const uint32_t guide[PLACES] = {0, 9, 0, 0};
    static const uint32_t schedule[] = {200, 200, 100, 100}, house[] = {200, 200, 100};
    const uint32_t *anchor = anchors[number == 12 ? 1 : number == 13 ? 2 : 0];
    const size_t work = SECONDCOOP_WORK_WORDS(PLACES, LANES) - (number == 11);
    uint32_t *words = (uint32_t *)lent;
    uint64_t figures[SECONDCOOP_PLAN_FIGURES];
    char name[32];
    secondcoop_plan(plan, sizeof plan - (number == 1), 0, number == 8 ? PLACES : 3, 0, anchor,
                    PLACES - (number == 9), guide, PLACES, 1, schedule, number == 10 ? 0 : 4,
                    house, 3, 100, words, PLACES, words + 16, 16, words + 64, work, lent + 1024,
                    SECONDCOOP_WIDE_NUMBERS(PLACES), figures);
    snprintf(name, sizeof name, "refusal %" PRIu32, number);
    must(figures[SECONDCOOP_PLAN_ENDING] == SECONDCOOP_REFUSED, name);
    must(figures[SECONDCOOP_PLAN_REFUSAL] == number, name);
}

/* Job A's explanation, its lists at `lists` and all other memory at `lent`. */
static void explanation(uint32_t *lists, uint64_t *lent, size_t places, size_t lanes,
                        uint32_t allowance, uint64_t ending, uint64_t refusal, const char *name)
{
    static const uint32_t anchor[PLACES] = {6, 5, 3, 0}, schedule[] = {200, 200, 100, 100};
    uint32_t *words = (uint32_t *)lent;
    uint64_t figures[SECONDCOOP_EXPLAIN_FIGURES];
    secondcoop_explain(plan, sizeof plan, 0, 3, 0, anchor, PLACES, anchor, 0, 0, schedule, 4,
                       schedule, 4, allowance, words, PLACES, words + 16, 16, words + 64,
                       SECONDCOOP_WORK_WORDS(PLACES, LANES), lent + 1024,
                       SECONDCOOP_WIDE_NUMBERS(PLACES), lists, places, lists + 64, lanes,
                       figures);
    must(figures[SECONDCOOP_PLAN_ENDING] == ending, name);
    must(figures[SECONDCOOP_PLAN_REFUSAL] == refusal, name);
    must(figures[SECONDCOOP_EXPLAIN_PLACES] == 0 && figures[SECONDCOOP_EXPLAIN_LANES] == 0, name);
}

/* A route and unfinished write no list; refusal 11 for a list writes nothing. */
static void explanations(uint64_t *read_only)
{
    uint64_t *lent = memory(PROT_READ | PROT_WRITE);
    uint32_t *lists = (uint32_t *)read_only;
    must(lent != NULL, "memory");
    if (lent == NULL)
        return;
    explanation(lists, lent, PLACES, LANES, 100, SECONDCOOP_ROUTE, 0, "a route");
    explanation(lists, lent, PLACES, LANES, 1, SECONDCOOP_UNFINISHED, 0, "unfinished");
    explanation(lists + 128, read_only, PLACES - 1, LANES, 100, SECONDCOOP_REFUSED, 11,
                "a short list of places");
    explanation(lists + 128, read_only, PLACES, LANES - 1, 100, SECONDCOOP_REFUSED, 11,
                "a short list of lanes");
}

int main(void)
{
    static const uint32_t numbers[] = {1, 8, 9, 10, 11, 12, 13}, good[] = {300, 200};
    uint64_t *read_only = memory(PROT_READ);
    uint32_t *house = memory(PROT_READ | PROT_WRITE);
    if (read_only == NULL || house == NULL)
        return 2;
    rejected_sheets((uint32_t *)read_only);
    for (size_t i = 0; i < sizeof numbers / sizeof *numbers; i++)
        refused_call(read_only, numbers[i]);
    explanations(read_only);
    must(secondcoop_load_house(good, 2, house, house + SECONDCOOP_HOUSE_NUMBERS) == 0
             && house[0] == 300 && house[1] == 200 && house[SECONDCOOP_HOUSE_NUMBERS] == 2,
         "a good sheet");
    return wrong;
}
