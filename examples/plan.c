/*
 * Plans a sheet, as a program that links the library does it: a program to copy from.
 *
 *     scripts/build planner_c
 *     cc -Iinclude examples/plan.c target/staticlib/libplanner_c.a
 *     ./a.out FILE                  without FILE: standard input
 *
 * Prints the sheet's notes, bound and fluents, the plan, and whether it replays; the status is 0. A fluent that no
 * formula names may begin as it likes: the plan is the same. The status is 1 where the library answers with a number,
 * which is printed with its place and cause, and 2 where the input or memory fails.
 */
#include "planner.h"

#include <stdio.h>
#include <stdlib.h>

/* The causes of 1 to 14. */
static const char *const causes[] = {
    "under 18 bytes, or last two bytes wrong",
    "a count, or the bound, outside its limits",
    "distance not the sum, or more than the bytes before the trailer",
    "a fluent record breaks its rule",
    "a formula record breaks its rule or has an unknown kind",
    "an effect record breaks its rule",
    "an action record breaks its rule",
    "a program record breaks its rule or has an unknown kind",
    "height above 16",
    "trace shorter than the bound",
    "work shorter than required",
    "no such fluent",
    "there is no plan at all",
    "there is no plan within the bound",
};

static int refused(uint32_t number, size_t place)
{
    printf("refused %lu %zu: %s\n", (unsigned long)number, place, causes[number - 1]);
    return 1;
}

static int failed(const char *what)
{
    perror(what);
    return 2;
}

/* All that is left of a file, in memory that the caller frees; null where that fails. */
static uint8_t *read_all(FILE *file, size_t *length)
{
    size_t capacity = 4096;
    uint8_t *bytes = malloc(capacity);
    *length = 0;
    while (bytes != NULL) {
        *length += fread(bytes + *length, 1, capacity - *length, file);
        if (*length < capacity && !ferror(file)) {
            return bytes;
        }
        capacity *= 2;
        uint8_t *larger = ferror(file) ? NULL : realloc(bytes, capacity);
        if (larger == NULL) {
            free(bytes);
        }
        bytes = larger;
    }
    return NULL;
}

/* Prints the notes, which here are text, the bound and the fluents, with those that no formula names told apart. */
static uint32_t describe(const uint8_t *sheet, size_t sheet_len, uint32_t names, size_t *place)
{
    size_t length, fluents, bound;
    uint32_t number = planner_notes(sheet, sheet_len, &length, place);
    if (number != 0) {
        return number;
    }
    fwrite(sheet, 1, length, stdout);
    number = planner_sizes(sheet, sheet_len, &fluents, &bound, place);
    if (number != 0) {
        return number;
    }
    printf("at most %zu transitions\n", bound);
    for (size_t fluent = 0; fluent < fluents; fluent++) {
        size_t size, initial;
        number = planner_look_up(sheet, sheet_len, fluent, &size, &initial, place);
        if (number != 0) {
            return number;
        }
        const char *named = names >> fluent & 1 ? "" : ": no formula names it";
        printf("fluent %zu has %zu values, at first %zu%s\n", fluent, size, initial, named);
    }
    return 0;
}

static void print_entry(uint16_t entry)
{
    if (entry == PLANNER_START) {
        puts("start");
    } else if (entry == PLANNER_STOP) {
        puts("stop");
    } else {
        printf("action %u\n", (unsigned)entry);
    }
}

/* Words of index to lend to planning: any number will do, and a larger one may save time. */
enum { INDEX = 4096 };

/* Plans in a work area, prints the plan, and replays it. */
static uint32_t plan(const uint8_t *sheet, size_t sheet_len, uint32_t *work, size_t words, size_t *place)
{
    uint16_t trace[PLANNER_TRACE_MAX];
    uint32_t index[INDEX];
    size_t n, t;
    uint32_t number =
        planner_plan(sheet, sheet_len, work, words, trace, PLANNER_TRACE_MAX, index, INDEX, &n, &t, place);
    if (number != 0) {
        return number;
    }
    printf("found: %zu moves by %zu transitions\n", n, t);
    for (size_t i = 0; i < n; i++) {
        print_entry(trace[i]);
    }
    uint32_t yes;
    number = planner_replay(sheet, sheet_len, trace, n, work, words, &yes, place);
    if (number != 0) {
        return number;
    }
    printf("replayed: %s\n", yes ? "yes" : "no");
    return 0;
}

/* Describes a sheet and plans it, in as much work as it requires. */
static int run(const uint8_t *sheet, size_t sheet_len)
{
    size_t words, place;
    uint32_t names;
    uint32_t number = planner_check(sheet, sheet_len, &words, &names, &place);
    if (number == 0) {
        number = describe(sheet, sheet_len, names, &place);
    }
    if (number != 0) {
        return refused(number, place);
    }
    uint32_t *work = malloc(words * sizeof *work);
    if (work == NULL) {
        return failed("work");
    }
    number = plan(sheet, sheet_len, work, words, &place);
    free(work);
    return number == 0 ? 0 : refused(number, place);
}

int main(int argc, char **argv)
{
    FILE *input = argc > 1 ? fopen(argv[1], "rb") : stdin;
    if (input == NULL) {
        return failed(argv[1]);
    }
    size_t sheet_len;
    uint8_t *sheet = read_all(input, &sheet_len);
    if (sheet == NULL) {
        return failed("reading");
    }
    fclose(input);
    int status = run(sheet, sheet_len);
    free(sheet);
    return status;
}
