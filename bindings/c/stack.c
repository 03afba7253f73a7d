/* Measures how much stack the functions take for the deepest texts and trees: 64 levels of each kind that types nest in, and for
 * images of up to 1,025 records in one another.
 * Each call runs on a stack of its own that is painted before; what is painted over was used. The status is 1 if a call
 * takes more than ARROW_TYPES_MAX_STACK. */

#define _XOPEN_SOURCE 700

#include "arrow_types.h"

#include <stdio.h>
#include <string.h>
#include <ucontext.h>

#define LEVELS 64
#define COUNT(array) (sizeof(array) / sizeof *(array))
#define WORDS (ARROW_TYPES_MAX_ROWS * ARROW_TYPES_ROW_WORDS)
#define HALVES (ARROW_TYPES_MAX_ROWS * ARROW_TYPES_HALF_ROW_WORDS)
#define NAMES (const uint8_t *)ARROW_TYPES_NAMES, (size_t)ARROW_TYPES_NAMES_LENGTH
#define TREE text, length, NAMES, rows, words

static char built[ARROW_TYPES_MAX_TEXT];
static const uint8_t *text = (const uint8_t *)built;
static size_t length;
static uint32_t rows[WORDS];
static size_t words;
static uint8_t out[ARROW_TYPES_MAX_TEXT];
static uint32_t back[WORDS];
static uint16_t halves[HALVES];
static uint32_t status;

/* What is written besides. */
static size_t size, count, place;
static uint32_t yes, number;

/* The calls, each with the tree that was read last. */
static void nothing(void)
{
}

static void read_text(void)
{
    status = arrow_types_read(text, length, rows, WORDS, &size, &place);
    words = size * ARROW_TYPES_ROW_WORDS;
}

static void print(void)
{
    status = arrow_types_print(TREE, out, sizeof out, &size);
}

static void rewrite(void)
{
    status = arrow_types_rewrite(text, length, rows, WORDS, out, sizeof out, back, WORDS, &size, &count, &number, &place);
}

static void is_sound(void)
{
    status = !arrow_types_is_sound(TREE);
}

static void depth(void)
{
    status = arrow_types_depth(TREE, &size) != 0 || size != LEVELS;
}

static void equal(void)
{
    status = !arrow_types_equal(TREE, TREE);
}

static void verdict(void)
{
    status = arrow_types_verdict(TREE, &yes, &size);
}

/* The root's fields of two names, where it is a Struct: the first need is met, so that the second is looked for too. */
static void needs(void)
{
    static const struct arrow_types_need two[] = {
        {0, 1, ARROW_TYPES_KIND_INT8, 0, 0, true, false}, {1, 1, ARROW_TYPES_KIND_STRUCT, 0, 0, true, false}};
    uint32_t answer = arrow_types_needs(TREE, (const uint8_t *)"ab", 2, two, COUNT(two), &yes, &size);
    status = answer != (rows[ARROW_TYPES_WORD_KIND] == ARROW_TYPES_KIND_STRUCT ? 0 : ARROW_TYPES_NOT_STRUCT);
}

/* Each of the two fields, where the root is a Struct: one leaves all that is deeper, one takes it out. */
static void take_column_out(void)
{
    uint32_t expected = rows[ARROW_TYPES_WORD_KIND] == ARROW_TYPES_KIND_STRUCT ? 0 : ARROW_TYPES_NOT_STRUCT;
    status = 0;
    for (size_t field = 0; field < 2; field++)
        if (arrow_types_take_column_out(TREE, field, back, WORDS, out, sizeof out, &count, &size) != expected)
            status = 1;
}

/* The image of the tree that was read last, of a record for each row; and room for more records than there may be. */
enum { TOO_MANY = ARROW_TYPES_MAX_ROWS + 1 };
static uint8_t image[TOO_MANY * (ARROW_TYPES_RECORD_BYTES + 8)];
static size_t image_length;

static void to_archive(void)
{
    status = arrow_types_to_archive(TREE, image, sizeof image, &image_length);
}

static void from_archive(void)
{
    status = arrow_types_from_archive(image, image_length, back, WORDS, out, sizeof out, &count, &size);
}

static void to_half_rows(void)
{
    status = arrow_types_to_half_rows(TREE, halves, HALVES, &count);
}

/* The half words that the call before left. */
static void from_half_rows(void)
{
    status = arrow_types_from_half_rows(text, length, NAMES, halves, count * ARROW_TYPES_HALF_ROW_WORDS, back, WORDS, &size);
}

static void set_parents(void)
{
    arrow_types_set_parents(rows, words);
    status = 0;
}

/* The calls, reading first, with the most that each took and what nested then. */
static struct call {
    const char *name;
    void (*run)(void);
    size_t most;
    const char *deepest;
} calls[] = {
    {"arrow_types_read", read_text, 0, ""},
    {"arrow_types_print", print, 0, ""},
    {"arrow_types_rewrite", rewrite, 0, ""},
    {"arrow_types_is_sound", is_sound, 0, ""},
    {"arrow_types_depth", depth, 0, ""},
    {"arrow_types_equal", equal, 0, ""},
    {"arrow_types_verdict", verdict, 0, ""},
    {"arrow_types_needs", needs, 0, ""},
    {"arrow_types_take_column_out", take_column_out, 0, ""},
    {"arrow_types_to_half_rows", to_half_rows, 0, ""},
    {"arrow_types_from_half_rows", from_half_rows, 0, ""},
    {"arrow_types_set_parents", set_parents, 0, ""},
    {"arrow_types_to_archive", to_archive, 0, ""},
    {"arrow_types_from_archive", from_archive, 0, ""},
};
enum { FROM_ARCHIVE = COUNT(calls) - 1 };

/* What opens a level and what closes it. A Map is two levels. */
static const struct nest {
    const char *open, *close;
    unsigned levels;
} nests[] = {
    {"List(", ")", 1},
    {"List(non-null ", ", field: 'n')", 1},
    {"FixedSizeList(4 x ", ")", 1},
    {"FixedSizeList(4, ", ")", 1},
    {"Struct(\"a\": Int8, \"b\": ", ")", 1},
    {"Union(Dense, 0: (\"a\": Int8), 1: (\"b\": ", "))", 1},
    {"Dictionary(Int8, ", ")", 1},
    {"Dictionary(", ", Int8)", 1},
    {"RunEndEncoded(non-null Int32, ", ")", 1},
    {"RunEndEncoded(non-null ", ", Int8)", 1},
    {"RunEndEncoded(\"r\": non-null Int32, \"v\": ", ")", 1},
    {"RunEndEncoded(\"r\": non-null ", ", \"v\": Int8)", 1},
    {"Map(\"e\": non-null Struct(\"k\": non-null Int8, \"v\": ", "), sorted)", 2},
    {"Map(\"e\": non-null Struct(\"k\": non-null ", ", \"v\": Int8), sorted)", 2},
};

/* What stands at level 64: a type that is read, and one that is refused as deep down as can be. */
static const struct leaf {
    const char *text;
    uint32_t refusal;
} leaves[] = {
    {"Timestamp(us, \"CET\")", 0},
    {"Map(\"e\": non-null Struct(), sorted)", ARROW_TYPES_TOO_DEEP},
};

/* Fills the text: so many times what opens, a List where a level is left, the leaf, and what closes. */
static void build(const struct nest *nest, const struct leaf *leaf)
{
    unsigned times = (LEVELS - 1) / nest->levels;
    int is_left = times * nest->levels < LEVELS - 1;
    built[0] = 0;
    for (unsigned i = 0; i < times; i++)
        strcat(built, nest->open);
    strcat(built, is_left ? "List(" : "");
    strcat(built, leaf->text);
    strcat(built, is_left ? ")" : "");
    for (unsigned i = 0; i < times; i++)
        strcat(built, nest->close);
    length = strlen(built);
}

enum { STACK = 4 * ARROW_TYPES_MAX_STACK, PAINT = 0xa5 };

static _Alignas(64) uint8_t stack[STACK];
static ucontext_t here, there;

/* How many bytes of stack a call takes. */
static size_t stack_of(void (*run)(void))
{
    memset(stack, PAINT, sizeof stack);
    getcontext(&there);
    there.uc_stack.ss_sp = stack;
    there.uc_stack.ss_size = sizeof stack;
    there.uc_link = &here;
    makecontext(&there, run, 0);
    swapcontext(&here, &there);
    size_t untouched = 0;
    while (untouched < sizeof stack && stack[untouched] == PAINT)
        untouched++;
    return sizeof stack - untouched;
}

/* Runs a call, keeps the most that it took, and says whether it answers as it should. */
static int measure(struct call *call, const char *open, uint32_t expected)
{
    size_t used = stack_of(call->run);
    if (used > call->most) {
        call->most = used;
        call->deepest = open;
    }
    if (status != expected)
        printf("%s answers %u for %s\n", call->name, (unsigned)status, built);
    return status == expected;
}

/* Reads a text, and gives its tree, if it has one, to every other call. */
static int measure_all(const struct nest *nest, const struct leaf *leaf)
{
    build(nest, leaf);
    if (!measure(&calls[0], nest->open, leaf->refusal))
        return 0;
    for (size_t i = 1; leaf->refusal == 0 && i < COUNT(calls); i++)
        if (!measure(&calls[i], nest->open, 0))
            return 0;
    return 1;
}

static void put(uint8_t *bytes, size_t number, size_t count)
{
    for (size_t i = 0; i < count; i++)
        bytes[i] = (uint8_t)(number >> 8 * i);
}

/* Fills the image: so many records in one another, each of a List but for the innermost, whose kind is named. */
static void nest_records(size_t records, uint32_t innermost)
{
    enum { BYTES = ARROW_TYPES_RECORD_BYTES + 4 };
    image_length = records * BYTES - 4;
    memset(image, 0, image_length);
    for (size_t i = 0, at = 0; i < records; i++) {
        int is_root = i == 0;
        put(image + at, image_length - at, 4);
        put(image + at + 4, i + 1 == records ? innermost : ARROW_TYPES_KIND_LIST, 2);
        image[at + 6] = (uint8_t)!is_root;
        put(image + at + 13, is_root ? 0 : 4, 2);
        memcpy(image + at + 15, "item", is_root ? 0 : 4);
        at += is_root ? ARROW_TYPES_RECORD_BYTES : BYTES;
    }
}

/* Images that nest deeper than a type may: they are refused, by the same stack. */
static int measure_images(void)
{
    static const struct {
        size_t records;
        uint32_t innermost, refusal;
        const char *what;
    } images[] = {
        {LEVELS, ARROW_TYPES_KIND_INT8, 0, "64 records in one another, List("},
        {LEVELS + 1, ARROW_TYPES_KIND_INT8, ARROW_TYPES_NOT_SOUND, "65 records in one another, List("},
        {ARROW_TYPES_MAX_ROWS, ARROW_TYPES_KIND_INT8, ARROW_TYPES_NOT_SOUND, "1,024 records in one another, List("},
        {ARROW_TYPES_MAX_ROWS, ARROW_TYPES_KIND_RUN_END_ENCODED + 1, ARROW_TYPES_UNKNOWN_KIND, "1,024 records, the last at fault, List("},
        {TOO_MANY, ARROW_TYPES_KIND_INT8, ARROW_TYPES_NO_ROOM, "1,025 records in one another, List("},
    };
    int good = 1;
    for (size_t i = 0; i < COUNT(images); i++) {
        nest_records(images[i].records, images[i].innermost);
        strcpy(built, images[i].what);
        good = measure(&calls[FROM_ARCHIVE], images[i].what, images[i].refusal) && good;
    }
    return good;
}

int main(void)
{
    int good = 1;
    for (size_t i = 0; i < COUNT(nests); i++)
        for (size_t j = 0; j < COUNT(leaves); j++)
            good = measure_all(&nests[i], &leaves[j]) && good;
    good = measure_images() && good;
    printf("stack, of %d bytes at the most; a call of nothing takes %zu\n", ARROW_TYPES_MAX_STACK, stack_of(nothing));
    for (size_t i = 0; i < COUNT(calls); i++) {
        printf("%6zu %s, in %s..\n", calls[i].most, calls[i].name, calls[i].deepest);
        good = calls[i].most <= ARROW_TYPES_MAX_STACK && good;
    }
    return !good;
}
