/* Reads the type text that is its argument and prints what it is: kind, rows, depth and the text as the library prints
 * it. Where the text is refused it prints the number and the place, where the tree is not printed the number, and answers
 * 1. */

#include "arrow_types.h"

#include <stdio.h>
#include <string.h>

static const uint8_t *const names = (const uint8_t *)ARROW_TYPES_NAMES;

static uint32_t rows[ARROW_TYPES_MAX_ROWS * ARROW_TYPES_ROW_WORDS];
static uint8_t out[ARROW_TYPES_MAX_TEXT];

static int refused(const char *what, uint32_t number)
{
    printf("not %s: %u, %s\n", what, (unsigned)number, arrow_types_sentence(number));
    return 1;
}

/* Reads a text into as many rows as its length asks for. One that these do not hold is refused in any case, and all
 * rows give it its own number and place. */
static uint32_t read_text(const uint8_t *text, size_t text_length, size_t *count, size_t *place)
{
    size_t lent = arrow_types_rows_to_lend(text_length) * ARROW_TYPES_ROW_WORDS;
    uint32_t status = arrow_types_read(text, text_length, rows, lent, count, place);
    if (status != ARROW_TYPES_TOO_MANY_ROWS)
        return status;
    return arrow_types_read(text, text_length, rows, sizeof rows / sizeof rows[0], count, place);
}

static int show(const uint8_t *text, size_t text_length)
{
    size_t count, depth, length, place;
    uint32_t status = read_text(text, text_length, &count, &place);
    if (status != 0) {
        printf("not read: %u at %zu, %s\n", (unsigned)status, place, arrow_types_sentence(status));
        return 1;
    }

    /* The tree is the rows filled, with the text that they point into. */
    size_t words = count * ARROW_TYPES_ROW_WORDS;
    status = arrow_types_depth(text, text_length, names, ARROW_TYPES_NAMES_LENGTH, rows, words, &depth);
    if (status != 0)
        return refused("sound", status);
    printf("kind %u, rows %zu, depth %zu\n", (unsigned)rows[ARROW_TYPES_WORD_KIND], count, depth);

    status = arrow_types_print(text, text_length, names, ARROW_TYPES_NAMES_LENGTH, rows, words, out, sizeof out,
                               &length);
    if (status != 0)
        return refused("printed", status);
    fwrite(out, 1, length, stdout);
    putchar('\n');
    return 0;
}

int main(int count, char **arguments)
{
    if (count != 2) {
        fprintf(stderr, "usage: example TEXT\n");
        return 2;
    }
    return show((const uint8_t *)arguments[1], strlen(arguments[1]));
}
