/* The stack of each function: every call runs on painted memory of its own,
 * and what it painted over, with a tenth to spare, is compared with the
 * header's figure divided by the program's argument. Prints a line for each
 * function; the exit status counts those that went deeper. */
#define _GNU_SOURCE
#include <stdio.h>
#include <stdlib.h>
#include <string.h>
#include <ucontext.h>

#include "secondcoop.h"

enum { STACK = 1 << 20, PAINT = 0xA7, PLACES = SECONDCOOP_MAX_PLACES, LANES = SECONDCOOP_MAX_LANES };

static uint8_t stack[STACK] __attribute__((aligned(64)));
static ucontext_t caller, callee;
static void (*function)(int);
static int which;
static uint8_t *begin;

static void enter(void)
{
    begin = __builtin_frame_address(0);
    function(which);
}

/* How far a call goes down. */
static size_t depth(void (*call)(int), int variant)
{
    /* Not by memset: a call may be the first to bind it. */
    for (volatile uint8_t *at = stack; at < stack + sizeof stack; at++)
        *at = PAINT;
    function = call;
    which = variant;
    getcontext(&callee);
    callee.uc_stack.ss_sp = stack;
    callee.uc_stack.ss_size = sizeof stack;
    callee.uc_link = &caller;
    makecontext(&callee, enter, 0);
    swapcontext(&caller, &callee);
    const uint8_t *end = stack;
    while (*end == PAINT)
        end++;
    return (size_t)(begin - end);
}

/* A plan of all places and lanes, as lists and as bytes, eight tables, a
 * schedule of all rounds, and memory for all of them. */
static uint32_t tails[LANES], heads[LANES], costs[LANES], classes[LANES];
static uint8_t plan[SECONDCOOP_MAX_PLAN_BYTES];
static size_t plan_length;
static uint32_t tables[9 * PLACES], schedule[2 * SECONDCOOP_MAX_ROUNDS];
static uint32_t route[PLACES];
static uint32_t log_words[SECONDCOOP_TURNS(PLACES, SECONDCOOP_MAX_ROUNDS)];
static uint32_t work[SECONDCOOP_WORK_WORDS(PLACES, LANES)];
static uint64_t wide[SECONDCOOP_WIDE_NUMBERS(PLACES)], figures[SECONDCOOP_EXPLAIN_FIGURES];
static uint32_t places[SECONDCOOP_PLACES_WORDS(PLACES)], lanes[SECONDCOOP_LANES_WORDS(LANES)];
static uint8_t text[SECONDCOOP_MAX_TEXT];

static void fill(void)
{
    for (uint32_t lane = 0; lane < LANES; lane++) {
        tails[lane] = lane / 8;
        heads[lane] = lane % PLACES;
        costs[lane] = lane * 7919 % (SECONDCOOP_MAX_COST + 1);
        classes[lane] = lane % (SECONDCOOP_MAX_CLASS + 1);
    }
    for (size_t at = PLACES; at < 9 * PLACES; at++)
        tables[at] = (uint32_t)(at * 2654435761u);
    for (size_t at = 0; at < 2 * SECONDCOOP_MAX_ROUNDS; at++)
        schedule[at] = SECONDCOOP_MAX_FACTOR - (uint32_t)(at / 2 * 660);
}

/* Calls that had another answer than they should. */
static int surprises;

static void expect(uint64_t figure, uint64_t wanted)
{
    surprises += figure != wanted;
}

static const uint8_t number[] = {0xFF, 0xFF, 0xFF, 0xFF, 0x0F, 0xFF, 0xFF, 0xFF, 0xFF, 0xFF};

/* Variant 0 is accepted, others are refused. */
static void read_plan_number(int variant)
{
    secondcoop_read_plan_number(number, sizeof number, variant ? 5 : 1, figures);
    expect(figures[SECONDCOOP_REFUSAL], variant ? SECONDCOOP_BAD_NUMBER : 0);
}

static void read_job_number(int variant)
{
    secondcoop_read_job_number(number, sizeof number, variant ? 5 : 0, figures);
    expect(figures[SECONDCOOP_REFUSAL], variant ? SECONDCOOP_BAD_NUMBER : 0);
}

static void write_plan_number(int variant)
{
    secondcoop_write_plan_number(text, variant ? 3 : 4, 0, SECONDCOOP_MAX_COST, figures);
    expect(figures[SECONDCOOP_REFUSAL], variant ? SECONDCOOP_SHORT_MEMORY : 0);
}

static void write_plan(int variant)
{
    secondcoop_write_plan(PLACES, tails, LANES, heads, LANES, costs, LANES, classes, LANES,
                          plan, variant ? 9 : sizeof plan, figures);
    expect(figures[SECONDCOOP_REFUSAL], variant ? SECONDCOOP_SHORT_MEMORY : 0);
    if (!variant)
        plan_length = figures[SECONDCOOP_FIRST];
}

static void check_plan(int variant)
{
    secondcoop_check_plan(plan, plan_length - (variant ? 1 : 0), figures);
    expect(figures[SECONDCOOP_REFUSAL], variant ? SECONDCOOP_BAD_NUMBER : 0);
}

static void read_plan(int variant)
{
    secondcoop_read_plan(plan, plan_length, tails, LANES, heads, LANES - (variant ? 1 : 0),
                         costs, LANES, classes, LANES, figures);
    expect(figures[SECONDCOOP_REFUSAL], variant ? SECONDCOOP_SHORT_MEMORY : 0);
}

static uint32_t house[SECONDCOOP_HOUSE_NUMBERS], house_count;

static void standard_house(int variant)
{
    (void)variant;
    secondcoop_standard_house(house, &house_count);
    expect(house_count, 2 * SECONDCOOP_STANDARD_ROUNDS);
}

/* The longest sheet; refused for its length, and for its last number. */
static void load_house(int variant)
{
    const uint32_t last = schedule[2 * SECONDCOOP_MAX_ROUNDS - 1];
    if (variant == 2)
        schedule[2 * SECONDCOOP_MAX_ROUNDS - 1] = 0;
    const uint32_t refusal =
        secondcoop_load_house(schedule, 2 * SECONDCOOP_MAX_ROUNDS - (variant == 1 ? 1 : 0),
                              house, &house_count);
    expect(refusal, variant ? SECONDCOOP_BAD_SCHEDULE : SECONDCOOP_NOT_REFUSED);
    expect(house_count, 2 * SECONDCOOP_MAX_ROUNDS);
    schedule[2 * SECONDCOOP_MAX_ROUNDS - 1] = last;
}

/* A route over the floor; sixteen rounds that finish at once; no route, since
 * the bytes are those of a plan without lanes; unfinished at once and after
 * some turns; refusals 1, 8, 9, 10, 11, 12, 13; a route with one class barred,
 * and no route with all; refusal 11 for each kind of work memory; a route on a
 * house of sixteen rounds, and refusal 10 for a house. In an explanation also
 * refusal 11 for each list. */
enum { PLAN_CALLS = 18, EXPLAIN_CALLS = 20 };

/* A planner call, or one that explains. */
static void either_call(int variant, int explains)
{
    static const uint8_t no_lanes[] = {0x80, 0x20, 0};
    static const uint32_t endings[EXPLAIN_CALLS] = {
        SECONDCOOP_ROUTE, SECONDCOOP_ROUTE, SECONDCOOP_NO_ROUTE,
        SECONDCOOP_UNFINISHED, SECONDCOOP_UNFINISHED, SECONDCOOP_REFUSED,
        SECONDCOOP_REFUSED, SECONDCOOP_REFUSED, SECONDCOOP_REFUSED,
        SECONDCOOP_REFUSED, SECONDCOOP_REFUSED, SECONDCOOP_REFUSED,
        SECONDCOOP_ROUTE, SECONDCOOP_NO_ROUTE, SECONDCOOP_REFUSED, SECONDCOOP_REFUSED,
        SECONDCOOP_ROUTE, SECONDCOOP_REFUSED, SECONDCOOP_REFUSED, SECONDCOOP_REFUSED};
    const uint32_t goal = variant == 1 ? 0 : variant == 6 ? PLACES : PLACES - 1;
    const uint32_t barred = variant == 12   ? SECONDCOOP_CLASS(5)
                            : variant == 13 ? SECONDCOOP_MAX_BARRED
                                            : 0;
    const uint32_t budget = variant == 3 ? 0 : variant == 4 ? 20 : UINT32_MAX;
    tables[0] = variant == 11 ? UINT32_MAX : 0;
    tables[PLACES - 1] = variant == 10 ? 1 : 0;
    schedule[0] = variant == 8 ? 0 : SECONDCOOP_MAX_FACTOR;
#define ARGUMENTS \
    variant == 2 ? no_lanes : plan, \
    variant == 2 ? sizeof no_lanes : plan_length - (variant == 5 ? 1 : 0), \
    0, goal, barred, tables, PLACES, tables + PLACES, 8 * PLACES, \
    variant == 7 ? 9 : 8, schedule, \
    variant == 16 || variant == 17 ? 0 : 2 * SECONDCOOP_MAX_ROUNDS, \
    house, house_count - (variant == 17 ? 1 : 0), budget, \
    route, PLACES - (variant == 9 ? 1 : 0), \
    log_words, sizeof log_words / sizeof *log_words, \
    work, sizeof work / sizeof *work - (variant == 14 ? 1 : 0), \
    wide, sizeof wide / sizeof *wide - (variant == 15 ? 1 : 0)
    if (explains)
        secondcoop_explain(ARGUMENTS, places, PLACES - (variant == 18 ? 1 : 0),
                           lanes, LANES - (variant == 19 ? 1 : 0), figures);
    else
        secondcoop_plan(ARGUMENTS, figures);
    expect(figures[SECONDCOOP_PLAN_ENDING], endings[variant]);
    if (variant < 2 || variant == 16)
        expect(figures[SECONDCOOP_PLAN_ROUNDS], SECONDCOOP_MAX_ROUNDS);
    if (explains && variant == 13)
        expect(figures[SECONDCOOP_EXPLAIN_LANES], 7);
}

static void plan_call(int variant)
{
    either_call(variant, 0);
}

static void explain_call(int variant)
{
    either_call(variant, 1);
}

/* Job A's floor with sixteen rounds: a route, sixteen rounds that finish at
 * once, unfinished, refused in the job, in the plan, in its call; no route, as
 * all lanes are barred. */
enum { TEXTS = 7 };

static void either_text(int variant, int explains)
{
    static const char *const ends[TEXTS] = {"bound 10000\n", "bound 10000\n", "turns 1\n",
                                            "refused 14 at 0\n", "refused 4 at 3\n",
                                            "refused 8 at 0\n", "no route turns 1\n"};
    static const char last[] = "barred lane 1 tail 0 head 2 cost 4 class 0\n";
    uint8_t job[] = {18, 4, 4, 0, 1, 1, 0, 0, 2, 4, 0, 1, 2, 2, 0, 1, 3, 3, 0,
                     0, 3, 0, 100, 16,
                     100, 100, 100, 100, 100, 100, 100, 100, 100, 100, 100, 100,
                     100, 100, 100, 100, 100, 100, 100, 100, 100, 100, 100, 100,
                     100, 100, 100, 100, 100, 100, 100, 100, 1,
                     0, 0, 0, 0, 0, 9, 0, 0};
    if (variant == 1)
        job[20] = 0;
    if (variant == 2)
        job[22] = 1;
    if (variant == 4)
        job[4] = 4;
    if (variant == 5)
        job[19] = 4;
    if (variant == 6)
        job[21] = 1;
    const char *const wanted = explains && variant == 6 ? last : ends[variant];
    const size_t bytes = sizeof job - (variant == 3 ? 1 : 0), end = strlen(wanted);
    const size_t length = explains ? secondcoop_explain_text(job, bytes, text, sizeof text)
                                   : secondcoop_bench_text(job, bytes, text, sizeof text);
    surprises += length < end || memcmp(text + length - end, wanted, end) != 0;
}

static void bench_text(int variant)
{
    either_text(variant, 0);
}

static void explain_text(int variant)
{
    either_text(variant, 1);
}

int main(int count, char **arguments)
{
    const size_t part = count > 1 ? strtoul(arguments[1], NULL, 10) : 1;
    static const struct {
        const char *name;
        void (*call)(int);
        int variants;
        size_t limit;
    } functions[] = {
        {"read_plan_number", read_plan_number, 2, SECONDCOOP_STACK},
        {"read_job_number", read_job_number, 2, SECONDCOOP_STACK},
        {"write_plan_number", write_plan_number, 2, SECONDCOOP_STACK},
        {"write_plan", write_plan, 2, SECONDCOOP_STACK},
        {"check_plan", check_plan, 2, SECONDCOOP_STACK},
        {"read_plan", read_plan, 2, SECONDCOOP_STACK},
        {"standard_house", standard_house, 1, SECONDCOOP_STACK},
        {"load_house", load_house, 3, SECONDCOOP_HOUSE_STACK},
        {"plan", plan_call, PLAN_CALLS, SECONDCOOP_PLAN_STACK},
        {"explain", explain_call, EXPLAIN_CALLS, SECONDCOOP_PLAN_STACK},
        {"bench_text", bench_text, TEXTS, SECONDCOOP_TEXT_STACK},
        {"explain_text", explain_text, TEXTS, SECONDCOOP_TEXT_STACK},
    };
    int deeper = 0;
    fill();
    for (size_t at = 0; at < sizeof functions / sizeof *functions; at++) {
        size_t most = 0;
        for (int variant = 0; variant < functions[at].variants; variant++) {
            const size_t used = depth(functions[at].call, variant);
            most = used > most ? used : most;
        }
        const size_t limit = functions[at].limit / part;
        printf("%s %zu of %zu\n", functions[at].name, most, limit);
        deeper += most * 10 > limit * 9;
    }
    if (surprises)
        printf("%d calls had another answer than they should\n", surprises);
    return surprises ? 100 : deeper;
}
