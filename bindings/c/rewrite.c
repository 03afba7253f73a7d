/* Rewrites the type text that is its argument: prints the text of the same type as the library spells it, and answers 0. Where
 * there is none it prints the step that failed and why, with the place in the text that is not read, and answers 1. */

#include "arrow_types.h"

#include <stdio.h>
#include <string.h>

#define COUNT(array) (sizeof(array) / sizeof *(array))

/* Room for every text. */
static uint32_t rows[ARROW_TYPES_MAX_ROWS * ARROW_TYPES_ROW_WORDS];
static uint32_t back[ARROW_TYPES_MAX_ROWS * ARROW_TYPES_ROW_WORDS];
static uint8_t out[ARROW_TYPES_MAX_TEXT];

static int rewrite(const uint8_t *text, size_t text_length)
{
    size_t length, count, place;
    uint32_t number;
    uint32_t step = arrow_types_rewrite(text, text_length, rows, COUNT(rows), out, sizeof out, back, COUNT(back),
                                        &length, &count, &number, &place);
    if (step == ARROW_TYPES_REWRITTEN) {
        fwrite(out, 1, length, stdout);
        putchar('\n');
        return 0;
    }
    printf("%s", arrow_types_step_sentence(step));
    if (number != 0)
        printf(": %u, %s", (unsigned)number, arrow_types_sentence(number));
    if (step == ARROW_TYPES_NOT_READ || step == ARROW_TYPES_NOT_READ_BACK)
        printf(", at byte %zu", place);
    putchar('\n');
    return 1;
}

int main(int count, char **arguments)
{
    if (count != 2) {
        fprintf(stderr, "usage: rewrite TEXT\n");
        return 2;
    }
    return rewrite((const uint8_t *)arguments[1], strlen(arguments[1]));
}
