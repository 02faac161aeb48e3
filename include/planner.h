/*
 * The verified planner, for C (C99) and C++ (C++11), and for every language that calls C; x86-64 System V. The archive
 * has instructions of x86-64-v2.
 *
 *     scripts/build planner_c       writes target/staticlib/libplanner_c.a
 *     cc -Iinclude program.c target/staticlib/libplanner_c.a
 *
 * examples/plan.c is a program to copy from. "Document 01" is the paper that fixes sheets, programs, plans and numbers;
 * "document 02" has what was asked for since.
 *
 * Buffers. Every buffer is the caller's: it is lent for the time of one call, nothing is retained, allocated or shared
 * between calls, and calls on different buffers may run at the same time.
 *  - A slice is a pointer to its first element, which is aligned for its type, then the number of its elements. An
 *    empty slice may be a null pointer with length 0.
 *  - Sheets and histories are read only, and are never written. Nobody else writes them during the call.
 *  - Work, trace, index and the single results are written. No two of them overlap, nor does one overlap a sheet or a
 *    history. They may hold anything before the call.
 *
 * Index. planner_plan takes an index of configurations already explored (document 02, F-4), which may have any length
 * from 0. The answer does not depend on it, nor what is left in trace and work: only the time does. An entry takes 3
 * words, one for 8 fluents and one for 2 nodes of the remaining program, so some 7 to 12; when the index is full nothing
 * more is noted. Clearing it is a part of the call: 4 MiB take some hundredths of a millisecond.
 *
 * Names. planner_check tells which fluents formulas name (document 02, F-5), as a set of 32 bits, bit x for fluent x:
 * the union over the formula table, each formula with all its subformulas, whether anything uses it or not. A fluent
 * that effects give values, but no formula names, is outside. The set is for a screen that shows fluents as bars: bars
 * outside it never change an answer. Two accepted sheets that differ only in initial values of fluents outside it get
 * the same from planner_check, the same number, n, t and trace from planner_plan and the same replies from
 * planner_replay; planner_look_up alone tells such a value. So when such a bar is moved, nothing is to be planned or
 * replayed again, and no other bar painted again.
 *
 * Moves. An action is possible where its precondition holds and no two of its effects that hold give one fluent
 * different values (document 02, F-2); conditions are judged in the values before it.
 *
 * Time and stack. planner_plan and planner_replay search, which may take time exponential in D; planner_plan, where
 * there is a plan, in the number of its transitions. Where an index has room for all configurations reached, the time
 * of planner_plan grew about in proportion to their transitions and to D on the sheets that were measured; where it has
 * not, it may be as without one. (Times on this page were measured with an archive that an older compiler made.)
 * planner_replay has a small index of its own. A call cannot be broken off. It takes at most PLANNER_STACK bytes of
 * stack, as measured.
 *
 * Answers. Every function returns a number; the place and the other results come through pointers.
 *  - 0: accepted, found, answered. The place is 0.
 *  - 1 to 14: as below. Every other result is 0. The place is the lowest faulty record for 4 to 8, else 0.
 * Causes are checked in rising order, and the first that holds gives the number. Each single result is written in
 * every case.
 *
 *   the sheet's author (each call checks all nine)
 *    1  under 18 bytes, or the last two bytes are wrong
 *    2  a count, or the bound D, outside its limits
 *    3  distance not the sum, or more than the bytes before the trailer
 *    4  a fluent record breaks its rule
 *    5  a formula record breaks its rule or has an unknown kind
 *    6  an effect record breaks its rule
 *    7  an action record breaks its rule
 *    8  a program record breaks its rule or has an unknown kind
 *    9  height above 16
 *   the caller
 *   10  trace shorter than D (planner_plan)
 *   11  work shorter than required (planner_plan, planner_replay)
 *   12  the fluent is not below F (planner_look_up)
 *   the quay itself (planner_plan)
 *   13  no run of at most D transitions ends final, and no run has D + 1: there is no plan at all
 *   14  none ends final, but some run has D + 1: there is no plan within the bound
 *
 * What is left in work, trace and index:
 *
 *   number                  work                          trace                                    index
 *   0 from planner_plan     the required words are 0,     the first n entries are the plan,        all words are 0
 *                           the rest untouched            the rest untouched
 *   0 from planner_replay   the required words are 0,     (none is lent)                           (none is lent)
 *                           the rest untouched
 *   1 to 11                 untouched                     untouched                                untouched
 *   13, 14                  the required words are 0,     untouched                                all words are 0
 *                           the rest untouched
 */
#ifndef PLANNER_H
#define PLANNER_H

#include <stddef.h>
#include <stdint.h>

#ifdef __cplusplus
extern "C" {
#endif

/* Entries of a history that are no action numbers. */
#define PLANNER_START 65534
#define PLANNER_STOP 65535

/* The most that any sheet requires: entries of trace, words of work. A caller who lends so many need not ask. */
#define PLANNER_TRACE_MAX 64
#define PLANNER_WORK_MAX 453635

/* Bytes of stack that a call takes at most. */
#define PLANNER_STACK 131072

/*
 * What the archive exports. C and C++ call the functions further down, which are the same but for null pointers. Other
 * languages call these: here a pointer is never null, and an empty slice, too, has some aligned address, as its own
 * end.
 */
uint32_t planner_raw_check(const uint8_t *sheet, size_t sheet_len, size_t *words, uint32_t *names, size_t *place);
uint32_t planner_raw_sizes(const uint8_t *sheet, size_t sheet_len, size_t *fluents, size_t *bound, size_t *place);
uint32_t planner_raw_plan(const uint8_t *sheet, size_t sheet_len, uint32_t *work, size_t work_len, uint16_t *trace,
                          size_t trace_len, uint32_t *index, size_t index_len, size_t *n, size_t *t, size_t *place);
uint32_t planner_raw_replay(const uint8_t *sheet, size_t sheet_len, const uint16_t *history, size_t history_len,
                            uint32_t *work, size_t work_len, uint32_t *yes, size_t *place);
uint32_t planner_raw_look_up(const uint8_t *sheet, size_t sheet_len, size_t fluent, size_t *size, size_t *initial,
                             size_t *place);
uint32_t planner_raw_notes(const uint8_t *sheet, size_t sheet_len, size_t *length, size_t *place);

/*
 * Checks a sheet. Number 0: it is accepted, planning and replay require *words words of work, and *names is the set of
 * the fluents that its formulas name, bit x for fluent x: bars outside it never change an answer.
 * Numbers 1 to 9.
 */
static inline uint32_t planner_check(const uint8_t *sheet, size_t sheet_len, size_t *words, uint32_t *names,
                                     size_t *place)
{
    const uint8_t no_sheet = 0;
    return planner_raw_check(sheet ? sheet : &no_sheet, sheet_len, words, names, place);
}

/*
 * Tells how much there is. Number 0: the sheet has *fluents fluents (F), and its bound (D) is *bound: planning requires
 * so many entries of trace.
 * Numbers 1 to 9.
 */
static inline uint32_t planner_sizes(const uint8_t *sheet, size_t sheet_len, size_t *fluents, size_t *bound,
                                     size_t *place)
{
    const uint8_t no_sheet = 0;
    return planner_raw_sizes(sheet ? sheet : &no_sheet, sheet_len, fluents, bound, place);
}

/*
 * Plans. Number 0: the first *n entries of trace are the history of a run of *t transitions, at most D, that ends
 * final, and it is the first such plan (document 02, F-1): no run of fewer transitions ends final, and of those of as
 * many none has a smaller history: smaller at the first differing entry, a proper beginning counting as smaller. So a
 * higher D alone keeps *n, *t and these entries as they are. An entry is an action's number, PLANNER_START or
 * PLANNER_STOP. Work needs as many words as planner_check says, trace D entries; both may be longer. The index may have
 * any length: a longer one may save time.
 * Numbers 1 to 11, 13 and 14.
 */
static inline uint32_t planner_plan(const uint8_t *sheet, size_t sheet_len, uint32_t *work, size_t work_len,
                                    uint16_t *trace, size_t trace_len, uint32_t *index, size_t index_len, size_t *n,
                                    size_t *t, size_t *place)
{
    const uint8_t no_sheet = 0;
    uint32_t no_work = 0;
    uint16_t no_trace = 0;
    uint32_t no_index = 0;
    return planner_raw_plan(sheet ? sheet : &no_sheet, sheet_len, work ? work : &no_work, work_len,
                            trace ? trace : &no_trace, trace_len, index ? index : &no_index, index_len, n, t, place);
}

/*
 * Replays a history. Number 0: *yes is 1 where some run of at most D transitions with exactly this history ends final,
 * else 0; an entry that the sheet does not know means no. Work is as for planner_plan.
 * Numbers 1 to 9 and 11.
 */
static inline uint32_t planner_replay(const uint8_t *sheet, size_t sheet_len, const uint16_t *history,
                                      size_t history_len, uint32_t *work, size_t work_len, uint32_t *yes, size_t *place)
{
    const uint8_t no_sheet = 0;
    const uint16_t no_history = 0;
    uint32_t no_work = 0;
    return planner_raw_replay(sheet ? sheet : &no_sheet, sheet_len, history ? history : &no_history, history_len,
                              work ? work : &no_work, work_len, yes, place);
}

/*
 * Looks up one fluent, numbered from 0. Number 0: its domain has *size values, and it begins as *initial.
 * Numbers 1 to 9 and 12.
 */
static inline uint32_t planner_look_up(const uint8_t *sheet, size_t sheet_len, size_t fluent, size_t *size,
                                       size_t *initial, size_t *place)
{
    const uint8_t no_sheet = 0;
    return planner_raw_look_up(sheet ? sheet : &no_sheet, sheet_len, fluent, size, initial, place);
}

/*
 * Number 0: the first *length bytes of the sheet itself are its notes.
 * Numbers 1 to 9.
 */
static inline uint32_t planner_notes(const uint8_t *sheet, size_t sheet_len, size_t *length, size_t *place)
{
    const uint8_t no_sheet = 0;
    return planner_raw_notes(sheet ? sheet : &no_sheet, sheet_len, length, place);
}

#ifdef __cplusplus
}
#endif

#endif
