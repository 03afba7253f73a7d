/* Reads the type text that is its argument and says whether it has the columns of a slot file: `slot`, seconds in a zone,
 * and `kwh`, which may be null. Where it has not, it prints the first that is not as needed, or why nothing was checked, and
 * answers 1. */

#include "arrow_types.h"

#include <stdio.h>
#include <string.h>

#define COUNT(array) (sizeof(array) / sizeof *(array))

static const uint8_t *const names = (const uint8_t *)ARROW_TYPES_NAMES;

/* Room for every text. */
static uint32_t rows[ARROW_TYPES_MAX_ROWS * ARROW_TYPES_ROW_WORDS];

/* The text of needs, and the needs. */
static const char needed[] = "slotkwh";
static const struct arrow_types_need needs[] = {
    {.name_start = 0, .name_length = 4, .kind = ARROW_TYPES_KIND_TIMESTAMP, .number = 0, .zoned = true},
    {.name_start = 4, .name_length = 3, .kind = ARROW_TYPES_KIND_DECIMAL64, .number = 12, .scale = 3 + 128,
     .null_allowed = true},
};

static int refused(const char *what, uint32_t number)
{
    printf("not %s: %u, %s\n", what, (unsigned)number, arrow_types_sentence(number));
    return 1;
}

static int check(const uint8_t *text, size_t text_length)
{
    size_t count, place, unmet;
    uint32_t yes;
    uint32_t status = arrow_types_read(text, text_length, rows, COUNT(rows), &count, &place);
    if (status != 0)
        return refused("read", status);
    status = arrow_types_needs(text, text_length, names, ARROW_TYPES_NAMES_LENGTH, rows, count * ARROW_TYPES_ROW_WORDS,
                               (const uint8_t *)needed, strlen(needed), needs, COUNT(needs), &yes, &unmet);
    if (status != 0)
        return refused("checked", status);
    if (yes) {
        puts("it fits");
        return 0;
    }
    const struct arrow_types_need *need = &needs[unmet];
    printf("need %zu is not met: %.*s\n", unmet, (int)need->name_length, needed + need->name_start);
    return 1;
}

int main(int count, char **arguments)
{
    if (count != 2) {
        fprintf(stderr, "usage: needs TEXT\n");
        return 2;
    }
    return check((const uint8_t *)arguments[1], strlen(arguments[1]));
}
