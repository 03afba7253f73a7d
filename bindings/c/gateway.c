/* Keeps the types of its arguments, each a type text, in one pool of half words, as a device that is short of memory does, and
 * prints each from there. One wide buffer serves them all, in turn. Then it says what the pool takes, beside what wide rows
 * would. Where it can't, it says why and answers 1. */

#include "arrow_types.h"

#include <stdio.h>
#include <string.h>

#define COUNT(array) (sizeof(array) / sizeof *(array))
#define MAX_KEPT 440 /* the heads of 40 files of 11 columns */
#define POOL_ROWS 1024

/* A type that is kept: its text, which the rows point into, and where its half words stand in the pool. */
struct kept {
    const char *text;
    size_t start;
    size_t rows;
};

static const uint8_t *const names = (const uint8_t *)ARROW_TYPES_NAMES;
static uint16_t pool[POOL_ROWS * ARROW_TYPES_HALF_ROW_WORDS];
static uint32_t rows[ARROW_TYPES_MAX_ROWS * ARROW_TYPES_ROW_WORDS];
static uint8_t out[ARROW_TYPES_MAX_TEXT];

static int refused(const char *what, uint32_t number)
{
    printf("not %s: %u, %s\n", what, (unsigned)number, arrow_types_sentence(number));
    return 1;
}

/* Reads a text and keeps its rows behind the half words that are filled. */
static int keep(const char *text, size_t filled, struct kept *kept)
{
    size_t count, place;
    const uint8_t *bytes = (const uint8_t *)text;
    uint32_t status = arrow_types_read(bytes, strlen(text), rows, COUNT(rows), &count, &place);
    if (status != 0)
        return refused("read", status);
    status = arrow_types_to_half_rows(bytes, strlen(text), names, ARROW_TYPES_NAMES_LENGTH, rows,
                                      count * ARROW_TYPES_ROW_WORDS, pool + filled, COUNT(pool) - filled, &count);
    if (status != 0)
        return refused("kept", status);
    *kept = (struct kept){text, filled, count};
    return 0;
}

/* Brings a kept type's rows back and prints them. */
static int print(const struct kept *kept)
{
    size_t count, length;
    const uint8_t *text = (const uint8_t *)kept->text;
    uint32_t status = arrow_types_from_half_rows(text, strlen(kept->text), names, ARROW_TYPES_NAMES_LENGTH, pool + kept->start,
                                                 kept->rows * ARROW_TYPES_HALF_ROW_WORDS, rows, COUNT(rows), &count);
    if (status != 0)
        return refused("brought back", status);
    status = arrow_types_print(text, strlen(kept->text), names, ARROW_TYPES_NAMES_LENGTH, rows, count * ARROW_TYPES_ROW_WORDS,
                               out, sizeof out, &length);
    if (status != 0)
        return refused("printed", status);
    printf("%.*s\n", (int)length, (const char *)out);
    return 0;
}

int main(int argc, char **argv)
{
    static struct kept kept[MAX_KEPT];
    size_t filled = 0, all = 0;
    if (argc - 1 > MAX_KEPT) {
        printf("more than %d types\n", MAX_KEPT);
        return 1;
    }
    for (int i = 1; i < argc; i++) {
        if (keep(argv[i], filled, &kept[i - 1]) != 0)
            return 1;
        all += kept[i - 1].rows;
        filled += kept[i - 1].rows * ARROW_TYPES_HALF_ROW_WORDS;
    }
    for (int i = 1; i < argc; i++)
        if (print(&kept[i - 1]) != 0)
            return 1;
    printf("%zu rows: %zu bytes in halves, %zu wide\n", all, filled * sizeof *pool,
           all * ARROW_TYPES_ROW_WORDS * sizeof *rows);
    return 0;
}
