/*
 * What include/planner.h promises a C program: an empty slice may be a null pointer, in every call; the most trace and
 * work that a sheet requires; bit x of a set for fluent x. Prints each expectation that fails; the status is 0 where none does.
 */
#include "planner.h"

#include <stdio.h>

#define COUNT(array) (sizeof(array) / sizeof *(array))

/* One fluent of one value, and nil: D 0 is put in, so that no move is needed. */
static const uint8_t nil_sheet[] = {
    1, 0,                                                           /* the fluent */
    0, 0, 0, 0, 0, 0, 0, 0,                                         /* nil */
    1, 0, 0, 0, 0, 0, 0, 0, 1, 0, 0, 0, 10, 0, 0, 0, 0x42, 0x51,    /* F 1, P 1, D 0, distance 10 */
};
/* The same, with D 1. */
static const uint8_t bounded_sheet[] = {
    1, 0, 0, 0, 0, 0, 0, 0, 0, 0, 1, 0, 0, 0, 0, 0, 0, 0, 1, 0, 1, 0, 10, 0, 0, 0, 0x42, 0x51,
};

/* What results hold before a call. */
enum { GARBAGE = 0x5a5a };
static size_t first, second, place;
static uint32_t names, yes;
static uint32_t work[67];
static uint32_t index_words[3];
static int failures;

static void expect(const char *what, int holds)
{
    if (!holds) {
        printf("not as expected: %s\n", what);
        failures++;
    }
}

/* A call's number and results, which are garbage again afterwards. */
static void answers(const char *what, uint32_t number, uint32_t expected, size_t expected_first, size_t expected_second)
{
    expect(what, number == expected && first == expected_first && second == expected_second && place == 0);
    first = second = place = GARBAGE;
}

static void null_sheet(void)
{
    names = GARBAGE;
    answers("check", planner_check(NULL, 0, &first, &names, &place), 1, 0, GARBAGE);
    expect("check: names", names == 0);
    answers("sizes", planner_sizes(NULL, 0, &first, &second, &place), 1, 0, 0);
    answers("plan", planner_plan(NULL, 0, NULL, 0, NULL, 0, NULL, 0, &first, &second, &place), 1, 0, 0);
    yes = GARBAGE;
    answers("replay", planner_replay(NULL, 0, NULL, 0, NULL, 0, &yes, &place), 1, GARBAGE, GARBAGE);
    expect("replay: yes", yes == 0);
    answers("look_up", planner_look_up(NULL, 0, 0, &first, &second, &place), 1, 0, 0);
    answers("notes", planner_notes(NULL, 0, &first, &place), 1, 0, GARBAGE);
}

static void null_areas(void)
{
    const uint8_t *sheet = nil_sheet;
    size_t len = COUNT(nil_sheet);
    index_words[0] = index_words[1] = index_words[2] = GARBAGE;
    answers("null work, plan", planner_plan(sheet, len, NULL, 0, NULL, 0, index_words, 3, &first, &second, &place), 11,
            0, 0);
    expect("index untouched", index_words[0] == GARBAGE && index_words[1] == GARBAGE && index_words[2] == GARBAGE);
    answers("null trace", planner_plan(sheet, len, work, 67, NULL, 0, index_words, 2, &first, &second, &place), 0, 0,
            0);
    expect("index cleared", index_words[0] == 0 && index_words[1] == 0 && index_words[2] == GARBAGE);
    answers("null index", planner_plan(sheet, len, work, 67, NULL, 0, NULL, 0, &first, &second, &place), 0, 0, 0);
    answers("null work, replay", planner_replay(sheet, len, NULL, 0, NULL, 0, &yes, &place), 11, GARBAGE, GARBAGE);
    answers("null history", planner_replay(sheet, len, NULL, 0, work, 67, &yes, &place), 0, GARBAGE, GARBAGE);
    expect("null history: yes", yes == 1);
    sheet = bounded_sheet;
    answers("null trace, D 1", planner_plan(sheet, len, work, 67, NULL, 0, NULL, 0, &first, &second, &place), 10, 0,
            0);
}

/* Fifteen stars, one around the other, around nil, and an interrupt around them: height 16, and D 64. */
static void largest(void)
{
    enum { LINKS = 16, RECORDS = 2 + 6 + 8 * (LINKS + 1) };
    static uint8_t sheet[RECORDS + 18] = {1, 0};
    static const uint8_t trailer[18] = {1, 0, 1, 0, 0, 0, 0, 0, LINKS + 1, 0, 64, 0, RECORDS, 0, 0, 0, 0x42, 0x51};
    for (uint8_t link = 1; link <= LINKS; link++) {
        uint8_t *record = sheet + 8 + 8 * link;
        record[0] = link < LINKS ? 5 : 11;
        record[2] = (uint8_t)(link - 1);
    }
    for (size_t i = 0; i < 18; i++) {
        sheet[RECORDS + i] = trailer[i];
    }
    answers("most work", planner_check(sheet, COUNT(sheet), &first, &names, &place), 0, PLANNER_WORK_MAX, GARBAGE);
    expect("most work: names", names == 0);
    answers("most trace", planner_sizes(sheet, COUNT(sheet), &first, &second, &place), 0, 1, PLANNER_TRACE_MAX);
}

/* 32 fluents of one value, of which fluents 0 and 31 are asked to be equal, and nil. */
static void bits(void)
{
    enum { FLUENTS = 32, RECORDS = 2 * FLUENTS + 6 + 8 };
    static uint8_t sheet[RECORDS + 18];
    static const uint8_t formula[6] = {4, 0, FLUENTS - 1, 0, 0, 0};
    static const uint8_t trailer[18] = {FLUENTS, 0, 1, 0, 0, 0, 0, 0, 1, 0, 0, 0, RECORDS, 0, 0, 0, 0x42, 0x51};
    for (size_t fluent = 0; fluent < FLUENTS; fluent++) {
        sheet[2 * fluent] = 1;
    }
    for (size_t i = 0; i < 6; i++) {
        sheet[2 * FLUENTS + i] = formula[i];
    }
    for (size_t i = 0; i < 18; i++) {
        sheet[RECORDS + i] = trailer[i];
    }
    answers("bits", planner_check(sheet, COUNT(sheet), &first, &names, &place), 0, 67, GARBAGE);
    expect("bits: names", names == UINT32_C(0x80000001));
}

int main(void)
{
    first = second = place = GARBAGE;
    null_sheet();
    null_areas();
    largest();
    bits();
    return failures == 0 ? 0 : 1;
}
