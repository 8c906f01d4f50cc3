/* Lists at every address that their elements permit: each function gives the
 * same figures and memory wherever its lists lie. The exit status counts the
 * functions that do not. */
#include <stdio.h>
#include <string.h>

#include "secondcoop.h"

enum { PLACES = 16, LANES = 30, BYTES = 256, WORDS = 512, WIDE = 40, SHIFTS = 16 };

/* Lists of one call, each at a shift of so many elements. */
static uint8_t byte_memory[3][BYTES + SHIFTS] __attribute__((aligned(64)));
static uint32_t word_memory[8][WORDS + SHIFTS] __attribute__((aligned(64)));
static uint64_t wide_memory[WIDE + SHIFTS] __attribute__((aligned(64)));
static uint64_t figure_memory[SECONDCOOP_EXPLAIN_FIGURES + SHIFTS] __attribute__((aligned(64)));
static uint8_t *bytes[3];
static uint32_t *words[8];
static uint64_t *wide;
static uint64_t *figures;

static void place(int shift)
{
    for (int at = 0; at < 3; at++) {
        bytes[at] = byte_memory[at] + shift;
        memset(bytes[at], 0xEE, BYTES);
    }
    for (int at = 0; at < 8; at++) {
        words[at] = word_memory[at] + shift;
        memset(words[at], 0xEE, WORDS * sizeof *words[at]);
    }
    wide = wide_memory + shift;
    memset(wide, 0xEE, WIDE * sizeof *wide);
    figures = figure_memory + shift;
    memset(figures, 0xEE, SECONDCOOP_EXPLAIN_FIGURES * sizeof *figures);
}

/* A ring of places with lanes over one place, as plan bytes in `bytes[0]`. */
static size_t plan_bytes(void)
{
    uint32_t tails[LANES], heads[LANES], costs[LANES], classes[LANES];
    for (uint32_t lane = 0; lane < LANES; lane++) {
        tails[lane] = lane / 2;
        heads[lane] = lane / 2 + 1 - (lane % 2 == 0 ? 1 : 0);
        costs[lane] = 500000 * lane;
        classes[lane] = lane % 2;
    }
    uint64_t written[SECONDCOOP_FIGURES];
    secondcoop_write_plan(PLACES, tails, LANES, heads, LANES, costs, LANES, classes, LANES,
                          bytes[0], BYTES, written);
    return written[SECONDCOOP_FIRST];
}

static void numbers(void)
{
    secondcoop_write_plan_number(bytes[0], BYTES, 7, SECONDCOOP_MAX_COST, figures);
    secondcoop_read_plan_number(bytes[0], BYTES, 7, figures);
    secondcoop_read_job_number(bytes[0], BYTES, 8, figures + 4);
}

static void read_plan(void)
{
    const size_t length = plan_bytes();
    secondcoop_read_plan(bytes[0], length, words[0], LANES, words[1], LANES, words[2], LANES,
                         words[3], LANES, figures);
    secondcoop_check_plan(bytes[0], length, figures + 4);
}

static void write_plan(void)
{
    const size_t length = plan_bytes();
    secondcoop_read_plan(bytes[0], length, words[0], LANES, words[1], LANES, words[2], LANES,
                         words[3], LANES, figures);
    secondcoop_write_plan(PLACES, words[0], LANES, words[1], LANES, words[2], LANES, words[3],
                          LANES, bytes[1], BYTES, figures);
}

static void houses(void)
{
    words[0][0] = 300, words[0][1] = 200, words[0][2] = 100, words[0][3] = 100;
    secondcoop_standard_house(words[1], words[2]);
    figures[0] = secondcoop_load_house(words[0], 4, words[1], words[2]);
    secondcoop_standard_house(words[3], words[4]);
    figures[1] = secondcoop_load_house(words[0], 3, words[3], words[4]);
}

/* An anchor table, a guide sheet, a schedule and a house. */
static void fill_tables(void)
{
    for (uint32_t at = 0; at < PLACES; at++) {
        words[0][at] = 0;
        words[1][at] = at * 7919 % 13;
    }
    words[2][0] = 300, words[2][1] = 200, words[2][2] = 100, words[2][3] = 100;
    words[2][4] = 400, words[2][5] = 150, words[2][6] = 400, words[2][7] = 100;
}

/* A call with a schedule of so many factors and a house of so many. */
static void plan_on(size_t schedule_length, size_t house_length)
{
    const size_t length = plan_bytes();
    fill_tables();
    /* The lanes of class 0 lead from a place to itself. */
    secondcoop_plan(bytes[0], length, 0, PLACES - 1, SECONDCOOP_CLASS(0), words[0], PLACES,
                    words[1], PLACES, 1, words[2], schedule_length,
                    words[2] + 4, house_length, 1000, words[3], PLACES, words[4], 40,
                    words[5], SECONDCOOP_WORK_WORDS(PLACES, LANES),
                    wide, SECONDCOOP_WIDE_NUMBERS(PLACES), figures);
}

static void plan_call(void)
{
    plan_on(4, 4);
}

static void house_call(void)
{
    plan_on(0, 4);
}

/* No route: the lanes of class 1 lead from a place to the next. */
static void explain_call(void)
{
    const size_t length = plan_bytes();
    fill_tables();
    secondcoop_explain(bytes[0], length, 3, PLACES - 1, SECONDCOOP_CLASS(1), words[0], PLACES,
                       words[1], PLACES, 1, words[2], 4, words[2] + 4, 4, 1000,
                       words[3], PLACES, words[4], 40,
                       words[5], SECONDCOOP_WORK_WORDS(PLACES, LANES),
                       wide, SECONDCOOP_WIDE_NUMBERS(PLACES),
                       words[6], PLACES, words[7], LANES, figures);
}

static void bench_text(void)
{
    static const uint8_t job[] = {18, 4, 4, 0, 1, 1, 0, 0, 2, 4, 0, 1, 2, 2, 0, 1, 3, 3, 0,
                                  0, 3, 0, 100, 0, 0, 0, 0, 0, 0};
    memcpy(bytes[0], job, sizeof job);
    figures[0] = secondcoop_bench_text(bytes[0], sizeof job, bytes[1], BYTES);
    figures[1] = secondcoop_explain_text(bytes[0], sizeof job, bytes[2], BYTES);
}

/* All memory of a call. */
struct memory {
    uint8_t bytes[3][BYTES];
    uint32_t words[8][WORDS];
    uint64_t wide[WIDE];
    uint64_t figures[SECONDCOOP_EXPLAIN_FIGURES];
};

static void keep(struct memory *memory)
{
    for (int at = 0; at < 3; at++)
        memcpy(memory->bytes[at], bytes[at], BYTES);
    for (int at = 0; at < 8; at++)
        memcpy(memory->words[at], words[at], sizeof memory->words[at]);
    memcpy(memory->wide, wide, sizeof memory->wide);
    memcpy(memory->figures, figures, sizeof memory->figures);
}

int main(void)
{
    static const struct {
        const char *name;
        void (*call)(void);
    } functions[] = {
        {"numbers", numbers},     {"read_plan", read_plan},   {"write_plan", write_plan},
        {"houses", houses},       {"plan", plan_call},        {"plan on a house", house_call},
        {"explain", explain_call}, {"bench_text and explain_text", bench_text},
    };
    static struct memory first, other;
    int wrong = 0;
    for (size_t at = 0; at < sizeof functions / sizeof *functions; at++) {
        for (int shift = 0; shift < SHIFTS; shift++) {
            struct memory *memory = shift == 0 ? &first : &other;
            place(shift);
            functions[at].call();
            keep(memory);
            if (shift > 0 && memcmp(&first, &other, sizeof first) != 0) {
                printf("%s differs at shift %d\n", functions[at].name, shift);
                wrong++;
            }
        }
    }
    /* The planner calls found a route: the memory compared is no refusal's. */
    place(0);
    plan_call();
    wrong += figures[SECONDCOOP_PLAN_BOUND] != 10000;
    house_call();
    wrong += figures[SECONDCOOP_PLAN_BOUND] != 40000;
    /* Nor is that of the explanation: place 3 and lane 7, which leaves it. */
    explain_call();
    wrong += figures[SECONDCOOP_EXPLAIN_PLACES] != 1 || words[6][0] != 3;
    return wrong + (figures[SECONDCOOP_EXPLAIN_LANES] != 1 || words[7][0] != 7);
}
