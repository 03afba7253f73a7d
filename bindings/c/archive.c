/* Writes the type text that is its argument into the archive record, shows the bytes, reads them back and compares. Where it can't,
 * it says why and answers 1. */

#include "arrow_types.h"

#include <stdio.h>
#include <string.h>

#define COUNT(array) (sizeof(array) / sizeof *(array))
#define WORDS (ARROW_TYPES_MAX_ROWS * ARROW_TYPES_ROW_WORDS)

static const uint8_t *const names = (const uint8_t *)ARROW_TYPES_NAMES;

/* A tree: where its text stands, and room for all rows. */
struct tree {
    const uint8_t *text;
    size_t length;
    uint32_t rows[WORDS];
    size_t words;
};

#define TREE(tree) (tree)->text, (tree)->length, names, ARROW_TYPES_NAMES_LENGTH, (tree)->rows, (tree)->words

static struct tree type, stored;
/* Room for the image of every text. */
static uint8_t image[ARROW_TYPES_MAX_ROWS * ARROW_TYPES_RECORD_BYTES + ARROW_TYPES_MAX_TEXT];
static uint8_t names_and_zones[ARROW_TYPES_MAX_TEXT];

static int refused(const char *what, uint32_t number)
{
    printf("not %s: %u, %s\n", what, (unsigned)number, arrow_types_sentence(number));
    return 1;
}

static int archive(const char *text)
{
    size_t count, place, length;
    type.text = (const uint8_t *)text;
    type.length = strlen(text);
    uint32_t status = arrow_types_read(type.text, type.length, type.rows, COUNT(type.rows), &count, &place);
    if (status != 0)
        return refused("read", status);
    type.words = count * ARROW_TYPES_ROW_WORDS;

    status = arrow_types_to_archive(TREE(&type), image, sizeof image, &length);
    if (status != 0)
        return refused("written", status);
    printf("%zu bytes:", length);
    for (size_t i = 0; i < length; i++)
        printf(" %02x", image[i]);
    printf("\n");

    stored.text = names_and_zones;
    status = arrow_types_from_archive(image, length, stored.rows, COUNT(stored.rows), names_and_zones, sizeof names_and_zones,
                                      &count, &stored.length);
    if (status != 0)
        return refused("read back", status);
    stored.words = count * ARROW_TYPES_ROW_WORDS;
    int equal = arrow_types_equal(TREE(&type), TREE(&stored)) == 1;
    printf("%zu row%s over \"%.*s\", %s\n", count, count == 1 ? "" : "s", (int)stored.length, (const char *)stored.text,
           equal ? "the same type" : "another type");
    return !equal;
}

int main(int count, char **arguments)
{
    if (count != 2) {
        fprintf(stderr, "usage: archive TEXT\n");
        return 2;
    }
    return archive(arguments[1]);
}
