/* Reads the type text that is its first argument and prints it without the columns that its second argument names. Where it
 * can't, it says why and answers 1. */

#include "arrow_types.h"

#include <stdio.h>
#include <string.h>

#define COUNT(array) (sizeof(array) / sizeof *(array))
#define WORDS (ARROW_TYPES_MAX_ROWS * ARROW_TYPES_ROW_WORDS)

static const uint8_t *const names = (const uint8_t *)ARROW_TYPES_NAMES;

/* A tree: where its text stands, and room for all rows. */
struct tree {
    const uint8_t *text;
    size_t length;
    uint32_t rows[WORDS];
    size_t words;
};

#define TREE(tree) (tree)->text, (tree)->length, names, ARROW_TYPES_NAMES_LENGTH, (tree)->rows, (tree)->words

/* What is read, and what stays, in turn: each over a text that the other is not written to. */
static struct tree trees[2];
static uint8_t texts[2][ARROW_TYPES_MAX_TEXT];
static uint8_t out[ARROW_TYPES_MAX_TEXT];

static int refused(const char *what, uint32_t number)
{
    printf("not %s: %u, %s\n", what, (unsigned)number, arrow_types_sentence(number));
    return 1;
}

/* Whether a row has a name. */
static int is_named(const struct tree *tree, const uint32_t *row, const char *name)
{
    size_t start, length;
    uint32_t home = arrow_types_name(tree->text, tree->length, names, ARROW_TYPES_NAMES_LENGTH, row[ARROW_TYPES_WORD_HOME],
                                     row[ARROW_TYPES_WORD_NAME_START], row[ARROW_TYPES_WORD_NAME_LENGTH], &start, &length);
    return length == strlen(name) && memcmp((home == 2 ? names : tree->text) + start, name, length) == 0;
}

/* The number of the root's first field of a name, or how many fields it has. */
static size_t field_of(const struct tree *tree, const char *name)
{
    size_t field = 0;
    for (size_t at = ARROW_TYPES_ROW_WORDS; at < tree->words; field++) {
        if (is_named(tree, tree->rows + at, name))
            return field;
        at += tree->rows[at + ARROW_TYPES_WORD_ROWS] * ARROW_TYPES_ROW_WORDS;
    }
    return field;
}

/* Takes fields of a name out, each out of what the one before left, till there is no such field. */
static uint32_t take_all_out(const struct tree **tree, const char *name)
{
    for (size_t turn = 1;; turn = 1 - turn) {
        struct tree *left = &trees[turn];
        size_t count;
        uint32_t status = arrow_types_take_column_out(TREE(*tree), field_of(*tree, name), left->rows, COUNT(left->rows),
                                                      texts[turn], sizeof texts[turn], &count, &left->length);
        if (status != 0)
            return status;
        left->text = texts[turn];
        left->words = count * ARROW_TYPES_ROW_WORDS;
        *tree = left;
    }
}

static int print_without(const char *text, const char *name)
{
    size_t count, place, length;
    struct tree *read = &trees[0];
    const struct tree *tree = read;
    read->text = (const uint8_t *)text;
    read->length = strlen(text);
    uint32_t status = arrow_types_read(read->text, read->length, read->rows, COUNT(read->rows), &count, &place);
    if (status != 0)
        return refused("read", status);
    read->words = count * ARROW_TYPES_ROW_WORDS;
    status = take_all_out(&tree, name);
    if (status != ARROW_TYPES_NO_SUCH_FIELD)
        return refused("taken out", status);
    status = arrow_types_print(TREE(tree), out, sizeof out, &length);
    if (status != 0)
        return refused("printed", status);
    printf("%.*s\n", (int)length, (const char *)out);
    return 0;
}

int main(int count, char **arguments)
{
    if (count != 3) {
        fprintf(stderr, "usage: without TEXT NAME\n");
        return 2;
    }
    return print_without(arguments[1], arguments[2]);
}
