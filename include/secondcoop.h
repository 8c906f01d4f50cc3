/*
 * The tug route planner, as C functions.
 *
 * A plan has V places, 1 to 4096, numbered from 0, and M one-way lanes, 0 to
 * 32768; a lane has a tail, a head, a cost, 0 to 16000000, and a class, 0 to
 * 7, and there is at most one lane for a tail and a head. Plan bytes are V,
 * M, then for each lane: tail minus the previous lane's tail (minus 0 for the
 * first), head, cost, class; heads rise strictly under one tail. Each number
 * stands in one to four groups of seven bits, lowest group first; a byte's
 * top bit is set when another group follows, and the last group is not zero
 * unless it is the only one.
 *
 * A planner call names classes that it bars: their lanes are not tried, and
 * no chain of lanes uses them. What a class stands for, as a ramp that some
 * tugs keep off, is the caller's.
 *
 * A planner call has a schedule of rounds, or takes the site's house schedule:
 * our six rounds, the standard house, until the site loads its own. The house
 * is the caller's memory too, SECONDCOOP_HOUSE_NUMBERS numbers and a count,
 * and the first `count` numbers are in force.
 *
 * For every function:
 * - A list is a pointer and the count of its elements. It is aligned as its
 *   elements are: bytes anywhere, 32-bit words at multiples of 4, 64-bit
 *   numbers, as figures and wide memory, at multiples of 8. An empty list may
 *   have any such pointer but null.
 * - Memory that is written does not overlap other memory of the same call.
 *   Memory beyond what is written keeps its contents.
 * - `figures` points to SECONDCOOP_FIGURES numbers, for secondcoop_plan to
 *   SECONDCOOP_PLAN_FIGURES, for secondcoop_explain to
 *   SECONDCOOP_EXPLAIN_FIGURES; the call writes them all, unused ones as 0. A
 *   refusal in figures leaves all other memory untouched. `numbers` points to
 *   SECONDCOOP_HOUSE_NUMBERS numbers, `count` to one.
 * - Nothing is kept from call to call and there is no global state: several
 *   threads may call at once with different memory to write; what is only
 *   read they may share, and nobody may write it before the calls return.
 *   Nothing is allocated, and every call returns.
 * - The libraries are for x86-64 with the System V calling convention (ELF
 *   objects, as on Linux; position-independent, without unwind tables) and
 *   need `memcpy` and `memset` from outside, nothing else.
 * - A call needs SECONDCOOP_STACK bytes of stack at most,
 *   secondcoop_load_house SECONDCOOP_HOUSE_STACK, secondcoop_plan and
 *   secondcoop_explain SECONDCOOP_PLAN_STACK, secondcoop_bench_text and
 *   secondcoop_explain_text SECONDCOOP_TEXT_STACK.
 * - `tools/archives` makes target/staticlib/libNAME.a: ffi_numbers has the
 *   functions on numbers, ffi_plans those on plans, ffi_planner those on
 *   houses, planner calls, explanations and bench jobs. A program links those
 *   that it calls.
 *
 * Refusals. They are checked downwards and the first fault counts; plan
 * numbers are taken in byte order, each through all its rows before the next
 * one is read. A position that is not named is 0; bytes are counted from 0
 * at the plan's first byte (also in a bench job), lanes from 0 in plan order.
 *
 *   place             no. condition                              position
 *   any plan number    1  bytes end, over four groups, or not    its first byte
 *                         shortest
 *   V                  2  0 or above 4096                        same
 *   M                  3  above 32768                            same
 *   tail, then head    4  not a place                            same
 *   head               6  not above the last head of that tail   same
 *   cost               5  above 16000000                         same
 *   class             15  above 7                                same
 *   plan's end         7  bytes left over                        first of them
 *   call               8  start or goal not a place, or barred   0
 *                         above 255
 *   call               9  over 8 guides, or tables not V         0
 *                         numbers each
 *   call              10  schedule, or if it is empty the house, 0
 *                         over 16 rounds, odd, out of range or
 *                         rising, or both empty
 *   call              11  route under V words, work under        0
 *                         3V+1+3M, or wide under 2V numbers;
 *                         in an explanation also places under V
 *                         words or lanes under M
 *   anchor table      12  not 0 at the goal                      0
 *   anchor table      13  a lane breaks its rule                 first such lane
 *   bench program     14  not a job for the bench program        0
 */
#ifndef SECONDCOOP_H
#define SECONDCOOP_H

#include <stddef.h>
#include <stdint.h>

#ifdef __cplusplus
extern "C" {
#endif

/*
 * The version of this interface: it rises when a declaration is added or
 * changes, or what a number or a word of memory means.
 *
 * Version 2: lanes have classes, a fourth number in plan bytes, a fourth list
 * to read and write, and M words more in work memory; a planner call and a
 * bench job have a barred number after the goal, and refusal 8, now
 * SECONDCOOP_BAD_ENDS_OR_BARRED, covers it. Plan bytes of version 1 have to
 * be written anew.
 *
 * Version 3: costs go to 16000000 and plan numbers have up to four groups;
 * refusals 1 and 5 move to these limits, and a number of four groups meets 2,
 * 3, 4 or 15 where it met 1. The costs of places are 64-bit
 * numbers in wide memory, which a planner call is lent after work memory;
 * work memory has 2V words less, and refusal 11 covers both. For not reached
 * and never expanded SECONDCOOP_UNREACHED stands there, and a kept cost may
 * pass 32 bits. Plan bytes of version 2 are plan bytes still, and of the same
 * plan.
 *
 * Version 4: 4294967295 on a guide sheet, SECONDCOOP_NO_OPINION, was a number
 * like the others; now the guide has no opinion on that place. In the anchor
 * table it is a number as before, and no declaration changes.
 *
 * Version 5: a site may load a house schedule of its own. A planner call is
 * handed the house after its schedule and takes it where that is empty;
 * refusal 10 then covers it. What was the house schedule is the standard
 * house now: SECONDCOOP_HOUSE_ROUNDS is SECONDCOOP_STANDARD_ROUNDS, a call
 * that is handed the standard house is what it was, and bench jobs take it
 * always. The libraries need `memcpy` too.
 *
 * Version 6: secondcoop_explain and secondcoop_explain_text say why there is
 * no route. What was there before is as it was.
 */
#define SECONDCOOP_VERSION 6

/* Limits of a plan and of a call. */
#define SECONDCOOP_MAX_PLACES 4096
#define SECONDCOOP_MAX_LANES 32768
#define SECONDCOOP_MAX_COST 16000000
#define SECONDCOOP_MAX_CLASS 7
#define SECONDCOOP_MAX_BARRED 255
#define SECONDCOOP_MAX_GUIDES 8
#define SECONDCOOP_MAX_ROUNDS 16
#define SECONDCOOP_MIN_FACTOR 100
#define SECONDCOOP_MAX_FACTOR 10000

/*
 * The bit of class k, 0 to 7, in a barred number: a call that bars classes 0
 * and 2 has SECONDCOOP_CLASS(0) | SECONDCOOP_CLASS(2), which is 5; one that
 * bars nothing has 0, one that bars all lanes SECONDCOOP_MAX_BARRED.
 */
#define SECONDCOOP_CLASS(k) (UINT32_C(1) << (k))

/* The numbers of a house, in force or not: W1 and W2 of the most rounds. */
#define SECONDCOOP_HOUSE_NUMBERS 32

/* The rounds of the standard house; another house has count / 2. */
#define SECONDCOOP_STANDARD_ROUNDS 6

/* Sizes of lent memory, in elements: figures; plan bytes that are always
 * enough to write so many lanes, and any plan; route, work and wide memory of
 * a planner call; both lists of an explanation; bytes that are always enough
 * for either text of a bench job. */
#define SECONDCOOP_FIGURES 4
#define SECONDCOOP_PLAN_FIGURES 8
#define SECONDCOOP_EXPLAIN_FIGURES 10
#define SECONDCOOP_PLAN_BYTES(lanes) (5 + 9 * (size_t)(lanes))
#define SECONDCOOP_MAX_PLAN_BYTES SECONDCOOP_PLAN_BYTES(SECONDCOOP_MAX_LANES)
#define SECONDCOOP_ROUTE_WORDS(places) ((size_t)(places))
#define SECONDCOOP_WORK_WORDS(places, lanes) \
    (3 * (size_t)(places) + 1 + 3 * (size_t)(lanes))
#define SECONDCOOP_WIDE_NUMBERS(places) (2 * (size_t)(places))
#define SECONDCOOP_PLACES_WORDS(places) ((size_t)(places))
#define SECONDCOOP_LANES_WORDS(lanes) ((size_t)(lanes))
#define SECONDCOOP_MAX_TEXT 289654

/*
 * The turns that always suffice for so many rounds, 2 * V for each: an
 * allowance of SECONDCOOP_TURNS(V, 1) never ends a call as unfinished, and
 * one for all rounds of the schedule, or of the house if it is empty
 * (SECONDCOOP_STANDARD_ROUNDS on the standard house), finishes them all,
 * unless there is no route. A log of as many words shows every turn of such a
 * call. At most 131072.
 */
#define SECONDCOOP_TURNS(places, rounds) \
    (UINT32_C(2) * (uint32_t)(places) * (uint32_t)(rounds))

/* Stack of a call, in bytes: of each function but those that follow, of
 * secondcoop_load_house, of secondcoop_plan and secondcoop_explain, of
 * secondcoop_bench_text and secondcoop_explain_text. Measured, with room to
 * spare. */
#define SECONDCOOP_STACK 1024
#define SECONDCOOP_HOUSE_STACK 8192
#define SECONDCOOP_PLAN_STACK 16384
#define SECONDCOOP_TEXT_STACK 94208

/* No predecessor; and what follows a route. */
#define SECONDCOOP_NONE UINT32_C(4294967295)

/* On a guide sheet: the guide has no opinion on the place, as where the
 * warehouse's own map shows no way through. */
#define SECONDCOOP_NO_OPINION UINT32_C(4294967295)

/* The cost of a place not reached, and that when last expanded of a place
 * never expanded. */
#define SECONDCOOP_UNREACHED UINT64_C(18446744073709551615)

/* The four figures of a call on numbers or plans. */
enum {
    SECONDCOOP_REFUSAL = 0,
    SECONDCOOP_POSITION = 1,
    SECONDCOOP_FIRST = 2,
    SECONDCOOP_SECOND = 3
};

/* Refusal numbers, as in the table above; the ends are start and goal. */
enum {
    SECONDCOOP_NOT_REFUSED = 0,
    SECONDCOOP_BAD_NUMBER = 1,
    SECONDCOOP_BAD_PLACE_COUNT = 2,
    SECONDCOOP_BAD_LANE_COUNT = 3,
    SECONDCOOP_NOT_A_PLACE = 4,
    SECONDCOOP_BAD_COST = 5,
    SECONDCOOP_BAD_LANE_ORDER = 6,
    SECONDCOOP_BYTES_LEFT_OVER = 7,
    SECONDCOOP_BAD_ENDS_OR_BARRED = 8,
    SECONDCOOP_BAD_TABLES = 9,
    SECONDCOOP_BAD_SCHEDULE = 10,
    SECONDCOOP_SHORT_MEMORY = 11,
    SECONDCOOP_ANCHOR_NOT_0_AT_GOAL = 12,
    SECONDCOOP_ANCHOR_BREAKS_RULE = 13,
    SECONDCOOP_NOT_A_JOB = 14,
    SECONDCOOP_BAD_CLASS = 15
};

/*
 * Reads the plan number whose first byte is at offset `at`.
 * Figures: refusal 1 with position `at`, or the value and the offset after
 * the number. An offset at or past the end of the bytes is refusal 1.
 */
void secondcoop_read_plan_number(const uint8_t *bytes, size_t bytes_length,
                                 size_t at, uint64_t *figures);

/*
 * As secondcoop_read_plan_number, for a number of a bench job: up to five
 * groups and 32 bits.
 */
void secondcoop_read_job_number(const uint8_t *bytes, size_t bytes_length,
                                size_t at, uint64_t *figures);

/*
 * Writes a plan number at offset `at`, in as few groups as it takes.
 * Figures: refusal 1 if four groups cannot hold it, else refusal 11 if the
 * output is too short, both with position 0; or the offset after the number
 * as first value.
 */
void secondcoop_write_plan_number(uint8_t *out, size_t out_length, size_t at,
                                  uint32_t value, uint64_t *figures);

/*
 * Checks plan bytes.
 * Figures: the first of refusals 1 to 7 and 15 and its position, or V and M.
 */
void secondcoop_check_plan(const uint8_t *bytes, size_t bytes_length,
                           uint64_t *figures);

/*
 * Reads plan bytes into four lists: the first M elements of each get the
 * lanes' tails, heads, costs and classes, in plan order.
 * Figures: the first of refusals 1 to 7 and 15 and its position, then refusal
 * 11 if a list has under M elements; or V and M.
 */
void secondcoop_read_plan(const uint8_t *bytes, size_t bytes_length,
                          uint32_t *tails, size_t tails_length,
                          uint32_t *heads, size_t heads_length,
                          uint32_t *costs, size_t costs_length,
                          uint32_t *classes, size_t classes_length,
                          uint64_t *figures);

/*
 * Writes plan bytes from V and four equal lists in plan order.
 * Figures: refusal 2, then 3 (also for unequal lists), then lane by lane 4,
 * 6 (also for a falling tail), 5, 15, with the lane's number as position, and
 * last 11 if the output is too short; or the count of bytes written as first
 * value. SECONDCOOP_PLAN_BYTES(M) bytes are always enough.
 */
void secondcoop_write_plan(uint32_t vertices,
                           const uint32_t *tails, size_t tails_length,
                           const uint32_t *heads, size_t heads_length,
                           const uint32_t *costs, size_t costs_length,
                           const uint32_t *classes, size_t classes_length,
                           uint8_t *out, size_t out_length,
                           uint64_t *figures);

/*
 * The standard house, which stands until a sheet is accepted: W1 = W2 = 500,
 * 300, 200, 150, 120, 100. Writes these twelve numbers, 0 in the other twenty,
 * and 12 as count.
 */
void secondcoop_standard_house(uint32_t *numbers, uint32_t *count);

/*
 * Loads a sheet, 1 to 16 pairs of W1 and W2, as the site's house.
 * Gives SECONDCOOP_NOT_REFUSED: the first numbers are the sheet, those behind
 * it keep their contents, and the count is the sheet's length. Or gives
 * SECONDCOOP_BAD_SCHEDULE if the sheet is empty, over 16 pairs, odd, out of
 * range or rising: numbers and count, whatever they hold, are not written, and
 * so the previous house stays in force.
 */
uint32_t secondcoop_load_house(const uint32_t *sheet, size_t sheet_length,
                               uint32_t *numbers, uint32_t *count);

/* How a planner call ends. */
enum {
    SECONDCOOP_ROUTE = 0,
    SECONDCOOP_NO_ROUTE = 1,
    SECONDCOOP_UNFINISHED = 2,
    SECONDCOOP_REFUSED = 3
};

/* The eight figures of a planner call. */
enum {
    SECONDCOOP_PLAN_ENDING = 0,
    SECONDCOOP_PLAN_REFUSAL = 1,
    SECONDCOOP_PLAN_POSITION = 2,
    SECONDCOOP_PLAN_COST = 3,
    SECONDCOOP_PLAN_LENGTH = 4,
    SECONDCOOP_PLAN_ROUNDS = 5,
    SECONDCOOP_PLAN_TURNS = 6,
    SECONDCOOP_PLAN_BOUND = 7
};

/*
 * Plans a route from start to goal over permitted lanes: those whose class
 * is not barred.
 *
 * bytes        The plan.
 * barred       The classes that are barred, 0 to 255, bit k for class k: 0
 *              bars nothing, 2 bars class 1, 5 bars classes 0 and 2
 *              (SECONDCOOP_CLASS).
 * anchor       The anchor table, V numbers: 0 at the goal, and on every lane,
 *              barred ones too, the tail's number is at most cost + the
 *              head's number. A table of zeros always passes. 4294967295 is
 *              a number like the others here.
 * guides       The guide sheets one after another, guide_count times V
 *              numbers, guide_count 0 to 8; any numbers. Where a sheet has
 *              SECONDCOOP_NO_OPINION, that guide has no opinion on the place
 *              and never expands it; other guides and the anchor may. A
 *              guide's turn for which no place is left goes to the anchor,
 *              so a sheet of that number alone leaves all its turns to it.
 *              Distances too long for it are cut at that number less 1.
 * schedule     W1 and W2 of each round in hundredths, 100 to 10000, neither
 *              rising from a round to the next; up to 16 rounds, 32 numbers.
 *              An empty schedule means the house.
 * house        The site's house, its first `count` numbers, not all 32. It is
 *              looked at only if the schedule is empty: then it is the call's
 *              schedule to the end, and tested as one, and an empty one is
 *              refused. It must not change before the call returns; who loads
 *              sheets meanwhile hands the call a copy.
 * budget       The allowance: the turns permitted over all rounds. 2 * V are
 *              enough for the first round, 2 * V times the rounds for all
 *              (SECONDCOOP_TURNS).
 *
 * Figures, unused ones 0:
 * - route:      kept cost, route length (the number of its places), finished
 *               rounds, turns, and as bound W1*W2 of the last finished
 *               round. Given when at least one round finished. 10000 * kept
 *               cost is at most the bound times the cost of every chain of
 *               permitted lanes from start to goal.
 * - no route:   turns. No chain of permitted lanes leads from start to goal.
 * - unfinished: turns. The allowance was spent in the first round.
 * - refused:    refusal number, 1 to 13 or 15, and position.
 *
 * How far a guide sheet can drag the search, whatever its numbers: where a
 * chain of permitted lanes leads from start to goal, a place that is expanded
 * for a guide, in any turn of any round, finished or cut, has cost + w1 * its
 * number on that sheet at most w1*w2 times the cost of the cheapest chain,
 * and one that is expanded for the anchor has cost + w1 * its anchor number
 * at most w1 times it (w1 and w2 are the round's, W1 and W2 over 100; the cost
 * is the place's in that turn). This is Theorem 12, and for the anchor
 * Theorem 9, of Aine, Swaminathan, Narayanan, Hwang and Likhachev,
 * Multi-Heuristic A* (the full report on what they first published in 2014),
 * over all rounds. On the standard house no guide expands a place dearer than
 * 25, 9, 4, 2.25, 1.44 and 1 times the cheapest chain, round by round.
 *
 * Lent memory, in 32-bit words but for wide:
 * - route, at least V words: the places from start to goal, then
 *   SECONDCOOP_NONE up to V words. Without a route it is unchanged.
 * - log, any length: word k, counted from 1, is the k-th turn's place +
 *   65536 * table (0 is the anchor, 1 the first guide); turns past its end
 *   are not logged. No call has more turns than its allowance, nor more than
 *   2 * V times its rounds.
 * - work, at least 3V+1+3M words (SECONDCOOP_WORK_WORDS): V+1 first lane
 *   numbers (the last is M), M heads, M costs, M classes, of all lanes, barred
 *   ones too; then two words for each place: its predecessor, SECONDCOOP_NONE
 *   before it has one, and its marks as a sum, as the search left them. Marks:
 *   1 expanded for a guide and 2 for the anchor, in the last round that began;
 *   4 open, it may be expanded; 8 held, its cost fell after the anchor
 *   expanded it, and it waits for the next round.
 * - wide, at least 2V numbers of 64 bits (SECONDCOOP_WIDE_NUMBERS): two for
 *   each place, its cost g, and its cost when last expanded, as the search
 *   left them. SECONDCOOP_UNREACHED: both, the place was not reached; the
 *   second alone, it was reached and never expanded.
 */
void secondcoop_plan(const uint8_t *bytes, size_t bytes_length,
                     uint32_t start, uint32_t goal, uint32_t barred,
                     const uint32_t *anchor, size_t anchor_length,
                     const uint32_t *guides, size_t guides_length,
                     uint32_t guide_count,
                     const uint32_t *schedule, size_t schedule_length,
                     const uint32_t *house, size_t house_length,
                     uint32_t budget,
                     uint32_t *route, size_t route_length,
                     uint32_t *log, size_t log_length,
                     uint32_t *work, size_t work_length,
                     uint64_t *wide, size_t wide_length,
                     uint64_t *figures);

/* The last two of an explanation's ten figures; the first eight are those of a
 * planner call. */
enum {
    SECONDCOOP_EXPLAIN_PLACES = 8,
    SECONDCOOP_EXPLAIN_LANES = 9
};

/*
 * Says why there is no route. Unless it is refused, it answers as
 * secondcoop_plan does on the same arguments and leaves route, log, work and
 * wide memory as that call does. Where the answer is no route
 * (SECONDCOOP_NO_ROUTE), two lists are written besides:
 *
 * places       The places that the tug can reach: those to which a chain of
 *              permitted lanes leads from the start, rising. The start is one
 *              of them and the goal is not, and no permitted lane leads from
 *              one of them to a place that is none of them.
 * lanes        The barred lanes that leave these places: each whose tail is
 *              one of them and whose head is not, by its number from 0 among
 *              all lanes in plan order, rising. Opening their classes need not
 *              give a route. Without any, no lane leaves these places at all,
 *              and opening classes does not help.
 *
 * Memory behind what is listed keeps its contents. A route, unfinished and a
 * refusal list nothing and leave both lists untouched.
 *
 * Figures: the eight of secondcoop_plan, then how many places and how many
 * lanes are listed, 0 and 0 where nothing is. A refusal is that of
 * secondcoop_plan, with 11 also, in its row and so before 12 and 13, if places
 * has under V words (SECONDCOOP_PLACES_WORDS) or lanes under M
 * (SECONDCOOP_LANES_WORDS).
 */
void secondcoop_explain(const uint8_t *bytes, size_t bytes_length,
                        uint32_t start, uint32_t goal, uint32_t barred,
                        const uint32_t *anchor, size_t anchor_length,
                        const uint32_t *guides, size_t guides_length,
                        uint32_t guide_count,
                        const uint32_t *schedule, size_t schedule_length,
                        const uint32_t *house, size_t house_length,
                        uint32_t budget,
                        uint32_t *route, size_t route_length,
                        uint32_t *log, size_t log_length,
                        uint32_t *work, size_t work_length,
                        uint64_t *wide, size_t wide_length,
                        uint32_t *places, size_t places_length,
                        uint32_t *lanes, size_t lanes_length,
                        uint64_t *figures);

/*
 * What the bench program prints for a job's bytes: plan length, the plan,
 * start, goal, barred number, allowance, count of rounds and their factors,
 * guide count, anchor table, guide sheets, each number in up to five groups
 * and 32 bits. A job without rounds takes the standard house. Each line ends
 * in a newline:
 *
 *   turn K table T place S       for each turn, then one of:
 *   route S S ..                 and in a second line
 *   end cost C rounds R turns N bound B
 *   no route turns N
 *   unfinished turns N
 *   refused N at P               for a refusal this line alone
 *
 * Gives the length of the text; its first bytes are written as far as there
 * is room, without a byte 0 at the end, and the rest of the memory keeps its
 * contents. A call with no room gives the length alone; SECONDCOOP_MAX_TEXT
 * bytes are always enough.
 *
 * Refusal 14 comes first for over 32768 bytes, over 16 rounds or 8 guides,
 * or bytes missing or a number of bad form up to the guide count; and after
 * refusal 7 if V > 256, M > 2048, or the tables are short, of bad form or
 * leave bytes over. Refusals 9 and 11 cannot occur.
 */
size_t secondcoop_bench_text(const uint8_t *job, size_t job_length,
                             uint8_t *text, size_t text_length);

/*
 * The explanation of a job's bytes as lines: those of secondcoop_bench_text
 * without the turn lines, and after `no route turns N`
 *
 *   reach S S ..                                       the places listed
 *   barred lane L tail S head S cost C class K         for each lane listed
 *
 * Length, room and refusals are as there.
 */
size_t secondcoop_explain_text(const uint8_t *job, size_t job_length,
                               uint8_t *text, size_t text_length);

#ifdef __cplusplus
}
#endif

#endif
